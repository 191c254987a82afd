#!/usr/bin/env python3
"""Keeps what the pages say and a tool can count: the list of the crates, the definitions behind each claim, and numbers.

    tools/gate/lists.py           tells what the pages have otherwise than the sources; the status is 1 then
    tools/gate/lists.py --write   writes it anew

docs/dev/CRATES.md is made of crates.txt, whose comments are headings, and of the head of each crate (`//!`). The table in
docs/dev/GUARANTEES.md has a row for each of CLAIMS. What stands behind a claim is found by names: the contracts of its
functions cite definitions, by the lines `ghost use` of their files, and these cite others, by their lines `use`. A row
has the files that those above it do not have, each with the lines of the definitions that are reached there, comments
included. Numbers in running text are those of PHRASES, on each page where they stand.

tools/gate/readme, which the gate runs, asks for `faults`.
"""
import functools
import glob
import os
import re
import sys
from pathlib import Path

TOP = str(Path(__file__).resolve().parents[2])
CRATES, GUARANTEES = "docs/dev/CRATES.md", "docs/dev/GUARANTEES.md"

# Of each claim: what is said, and the functions whose contracts say it. Of those in front of the line README speaks.
CLAIMS = [
    ("A step does what the model's step does, and undoing it is exact",
     ["rev_steps/src/lib.rt apply", "rev_inverse/src/turning.rt turn"]),
    ("A session stands where the steps from its root lead",
     [f"rev_undotree/src/session.rt {it}" for it in ("play", "back", "forward", "go", "prune", "store")]),
    ("`:why`, `:story` and `:gone` are what comparing states would tell",
     ["rev_explain/src/explain.rt why", "rev_explain/src/explain.rt story", "rev_explain/src/leaving.rt departures"]),
    ("What a run writes is a function of the script",
     ["rev_shell/src/run.rt run", "rev_shell/src/run.rt run_at_last", "rev_program/src/program.rt program"]),
    ("Several players leave a legal log",
     ["rev_recorder/src/settle.rt settle", "rev_recordings/src/play.rt play_files"]),
]  # fmt: skip
OF_README = len(CLAIMS)
CLAIMS += [
    ("A line of JSON for each line", ["rev_json/src/run.rt run_as_json"]),
    ("What a start and a trace leave", ["rev_plays/src/start.rt play_start", "rev_plays/src/trace.rt play_trace"]),
    ("What a report counts",
     ["rev_figures/src/walk.rt gather", "rev_figures/src/tables.rt count_all", "rev_figures/src/sums.rt add"]),
    ("What a trial of another setting counts", ["rev_whatif/src/course.rt feed", "rev_whatif/src/course.rt told"]),
    ("What is played of an event of a log", ["rev_lead/src/driver.rt take"]),
    ("The script of played steps", ["rev_lines/src/line.rt put_step", "rev_transcript/src/path.rt put_path"]),
    ("What becomes of logs and traces by the rules",
     ["rev_intake/src/logs.rt make_script", "rev_intake/src/traces.rt make_row_script"]),
    ("What a server's items become", ["rev_snapshot/src/start.rt put_start"]),
]  # fmt: skip
HEAD = ["| Claim | Contracts | Lines | Files that it adds to those above, each with its lines |", "|---|---|---|---|"]

# How a definition begins; a name in its text; and the lines that bring names in.
BEGIN = re.compile(
    r" *(?:abbrev|unfoldable)(?: pub)? (\S+)| *(?:pub )?(?:record|data) (?!\{)(\S+)|pub (?!use |mod )(\S+)"
)
# Lines between definitions.
BETWEEN = re.compile(r" *(--.*|module .*)?")
NAME = r"[^\s(){}\[\],.;:λ→×≡≢]+"
USE = re.compile(r"(?m)^(?:ghost |pub )*use Rattle\.([\w.]+)(?:\.\{(.*)\}| as (\w+))")


def read(name):
    with open(f"{TOP}/{name}", encoding="utf-8") as it:
        return it.read()


def imported(text):
    """By which module and name each name stands that a text brings in, and which modules have names of their own."""
    names, modules = {}, {}
    for module, some, alias in USE.findall(text):
        if alias:
            modules[alias] = module
        for it in filter(None, re.split(r",\s*", some)):
            name, _, other = it.partition(" as ")
            names[other or name] = module, name
    return names, modules


class Definitions:
    """A file of definitions: the text and the lines of each, and which one has a name."""

    def __init__(self, text):
        self.imported, self.modules = imported(text)
        self.texts, self.lines, self.places = [], [], {}
        rows = text.split("\n")
        begins = [at for at, row in enumerate(rows) if BEGIN.match(row)]
        for at, end in zip(begins, [*begins[1:], len(rows)]):
            head = at
            while re.match(" *-- (?!--)", rows[head - 1]):
                head -= 1
            # (the comment in front of the next one is not of this one)
            body = rows[at:end]
            while BETWEEN.fullmatch(body[-1]):
                body.pop()
            body = [row for row in body if row.strip()]
            for name in filter(None, BEGIN.match(rows[at]).groups()):
                self.places[name] = len(self.texts)
            if re.match(" *(pub )?data ", rows[at]):
                for name in re.findall(r"(?m)^ +(?:pub )?(\S+) :", "\n".join(body)):
                    self.places.setdefault(name, len(self.texts))
            self.texts.append("\n".join(row.partition("-- ")[0] for row in body))
            self.lines.append(len(body) + at - head)

    def cited(self, place):
        """The names that a definition cites, each with the module that has it, or none for its own."""
        text = self.texts[place]
        for name in set(re.findall(NAME, text)):
            yield self.imported.get(name, (None, name))
        for alias, module in self.modules.items():
            for name in set(re.findall(rf"\b{alias}\.({NAME})", text)):
                yield module, name


@functools.cache
def modules():
    """All files of definitions, by their names as modules."""
    found = {}
    for file in glob.glob(f"{TOP}/crates/*/specs/*.antt"):
        crate, _, name = os.path.relpath(file, f"{TOP}/crates").split("/")
        if name != "Lib.antt":
            found[f"{crate}.specs.{name.removesuffix('.antt')}"] = Definitions(read(os.path.relpath(file, TOP)))
    return found


def place_of(module, name):
    """Where a name is defined, as a module and a place in it, or nothing if it is std's or of the code."""
    seen = set()
    while module in modules() and (module, name) not in seen:
        seen.add((module, name))
        it = modules()[module]
        if name in it.places:
            return module, it.places[name]
        module, name = it.imported.get(name, (None, name))
    return None


def contract(function):
    """The names that the contract of a function cites, each with its module."""
    file, name = function.split()
    text = read(f"crates/{file}")
    found = re.search(rf"^( *)pub fn {name}\b.*?(?=^\1\{{\n)", text, re.M | re.S)
    if not found:
        raise LookupError(f"tools/gate/lists.py: crates/{file} has no public function {name}")
    names, _ = imported(text)
    return [names[it] for it in set(re.findall(NAME, found[0])) if it in names]


@functools.cache
def behind(functions):
    """The definitions behind the contracts of functions."""
    found, left = set(), [place_of(*it) for function in functions for it in contract(function)]
    while left:
        it = left.pop()
        if it and it not in found:
            found.add(it)
            module, place = it
            left += [place_of(of or module, name) for of, name in modules()[module].cited(place)]
    return found


def lines_of(places):
    return sum(modules()[module].lines[place] for module, place in places)


def claim_rows():
    """The rows of the table of claims."""
    rows, above = [], set()
    for claim, functions in CLAIMS:
        found = behind(tuple(functions))
        files = {}
        for module, place in found - above:
            files.setdefault(module, set()).add((module, place))
        above |= found
        crates = {}
        for module in sorted(files):
            crate, _, name = module.split(".")
            crates.setdefault(crate, []).append(f"{name} {lines_of(files[module])}")
        added = "; ".join(f"`{crate}`: {', '.join(crates[crate])}" for crate in [*crates_in_order()] if crate in crates)
        named = {}
        for file, function in map(str.split, functions):
            named.setdefault(file, []).append(f"`{function}`")
        places = "; ".join(f"{', '.join(names)} in `{file}`" for file, names in named.items())
        rows.append(f"| {claim} | {places} | {lines_of(found)} | {added or 'none'} |")
    return [*rows, f"| All of these | | {lines_of(above)} | of {lines_in_specs()} lines in all |"]


def crates_in_order():
    """The crates of crates.txt, each with the heading above it."""
    heading, found = "", {}
    for line in read("crates.txt").splitlines():
        if line.startswith("# - "):
            heading = line.removeprefix("# - ")
        elif line.partition("#")[0].strip():
            found[re.split(r"[ :]", line)[0]] = heading
    return found


def head_of(crate):
    """What a crate says of itself first."""
    for root in ("lib", "main"):
        if os.path.exists(f"{TOP}/crates/{crate}/src/{root}.rt"):
            found = re.match(r"(?://!.*\n)+", read(f"crates/{crate}/src/{root}.rt"))
            text = re.sub(r"(?m)^//! ?", "", found[0]) if found else ""
            return " ".join(text.partition("\n\n")[0].split())
    raise LookupError(f"tools/gate/lists.py: {crate} of crates.txt has no root file")


def lines_in(crate):
    """How many lines a crate's files of definitions have, and how many files they are."""
    files = [it for it in glob.glob(f"{TOP}/crates/{crate}/specs/*.antt") if not it.endswith("/Lib.antt")]
    return sum(read(os.path.relpath(it, TOP)).count("\n") for it in files), len(files)


def lines_in_specs():
    return sum(lines_in(it)[0] for it in crates_in_order())


def planted(crate):
    """How many edits and how many mistakes a crate has."""
    return [len(glob.glob(f"{TOP}/crates/{crate}/{it}")) for it in ("must-fail/*.edit", "mistakes/*.mistake")]


def counted(count, what):
    return f"{count} {what}" + "s" * (count != 1)


def list_of_crates():
    """The page with the list of the crates."""
    lines = [
        "# The crates",
        "",
        "Made by `tools/gate/lists.py` of crates.txt and of the head of each crate. A group stands on those above it, and a",
        "crate on those above it in its group; crates.txt says on which. Definitions are lines in `specs/`. What is planted",
        "is a wrong body that the checker has to refuse ([GATE.md](GATE.md)).",
        "",
        sums(),
        "",
        "| Crate | What it is | Definitions | Planted |",
        "|---|---|---|---|",
    ]
    heading = None
    for crate, above in crates_in_order().items():
        if above != heading:
            heading = above
            lines.append(f"| | **{heading}** | | |")
        edits, mistakes = planted(crate)
        told = counted(edits, "edit") if edits else counted(mistakes, "mistake") if mistakes else ""
        lines.append(f"| `{crate}` | {head_of(crate)} | {lines_in(crate)[0] or ''} | {told} |")
    return "\n".join([*lines, ""])


def sums():
    crates, it = crates_in_order(), numbers()
    edits = "%d edits of %d crates, " % it["edits"] if it["edits"][0] else ""
    return (
        f"There are {len(crates)} crates, {it['definitions']} lines in {it['files']} files of `specs/`,\n"
        f"{edits}and {'%d mistakes of %d crates' % it['mistakes']}."
    )


@functools.cache
def numbers():
    """What is counted."""
    crates = crates_in_order()
    edits, mistakes = ([planted(it)[kind] for it in crates] for kind in (0, 1))
    of_readme = set().union(*(behind(tuple(functions)) for _, functions in CLAIMS[:OF_README]))
    return {
        "definitions": lines_in_specs(),
        "files": sum(lines_in(it)[1] for it in crates),
        "edits": (sum(edits), sum(map(bool, edits))),
        "mistakes": (sum(mistakes), sum(map(bool, mistakes))),
        "read": lines_of(of_readme),
        "first": lines_of(behind(tuple(CLAIMS[0][1]))),
    }


def phrases():
    """How numbers stand in running text, and what they are."""
    it = numbers()
    return [
        (r"\d+ crates of this repository", f"{len(crates_in_order())} crates of this repository"),
        (r"\d+ lines in \d+ files of `specs/`", f"{it['definitions']} lines in {it['files']} files of `specs/`"),
        (r"\d+ edits of \d+ crates", "%d edits of %d crates" % it["edits"]),
        (r"\d+ mistakes of \d+ crates", "%d mistakes of %d crates" % it["mistakes"]),
        (r"\d+ lines of definitions", f"{it['read']} lines of definitions"),
        (r"\d+ lines of them", f"{it['first']} lines of them"),
    ]


def with_claims(page):
    """The page with the table of claims."""
    lines = page.split("\n")
    begin = lines.index(HEAD[0])
    end = next(at for at in range(begin, len(lines)) if not lines[at].startswith("|"))
    return "\n".join([*lines[:begin], *HEAD, *claim_rows(), *lines[end:]])


def pages():
    """Each page by its name, as it is and as it is to be."""
    names = ["README.md", *(os.path.relpath(it, TOP) for it in glob.glob(f"{TOP}/docs/**/*.md", recursive=True))]
    for name in sorted({*names, CRATES}):
        page = read(name) if os.path.exists(f"{TOP}/{name}") else ""
        wanted = list_of_crates() if name == CRATES else with_claims(page) if name == GUARANTEES else page
        for pattern, text in phrases():
            wanted = re.sub(pattern, text, wanted)
        yield name, page, wanted


def faults():
    """What the pages have otherwise, a line each; and which crate stands above one that it uses, or uses one of the kit
    that the page of guarantees does not name."""
    above, trusted = set(), re.findall(r"`(\w+)`", read(GUARANTEES).partition("## What it stands on")[2])
    for line in filter(None, (it.partition("#")[0].strip() for it in read("crates.txt").splitlines())):
        crate, uses = line.split()[0].rstrip(":"), line.partition(":")[2].split()
        low = [it for it in uses if it in crates_in_order() and it not in above]
        if low:
            yield f"crates.txt: {crate} stands above {', '.join(low)}, which it uses"
        for it in uses:
            if it not in crates_in_order() and it not in trusted:
                yield f"{GUARANTEES}: {it} of the kit, which {crate} uses, is not named"
        above.add(crate)
    for name, page, wanted in pages():
        found, should = page.split("\n"), wanted.split("\n")
        at = next((it for it, rows in enumerate(zip(found, should), 1) if rows[0] != rows[1]), None)
        if page != wanted:
            yield f"{name}:{at or len(found)}: the sources say otherwise: tools/gate/lists.py --write"


def main(words):
    if words not in ([], ["--write"]):
        print(__doc__, end="", file=sys.stderr)
        return 2
    if words:
        for name, page, wanted in pages():
            if page != wanted:
                with open(f"{TOP}/{name}", "w", encoding="utf-8") as it:
                    it.write(wanted)
        return 0
    found = [*faults()]
    print("\n".join(found) or "the pages have it as the sources do")
    return 1 if found else 0


if __name__ == "__main__":
    sys.exit(main(sys.argv[1:]))
