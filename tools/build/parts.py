"""Cuts a module, in LLVM's text, into parts that are compiled side by side, for tools/build/quick.

Functions that are the same but for their names are made one first: what a generic function is for one type is often
what it is for another. What only the reading of the command line uses is cold: it stands in a part of its own, which is
compiled at once, with no optimization. The rest is for speed. A function on which much hangs, such as what one word of
the command line does, stands in one part, and other parts call it there. Whatever else a part uses it holds itself, so
it is optimized as in the whole module.

What it knows of the text: a function's `define` ends with a line `}`, all else is a line; a name begins with `@`, and a
function's begins with its crate's; what is called stands before a `(`; what no other module sees is `internal` or
`private`; whose address has no meaning is `unnamed_addr`.
"""
import collections
import re

from building import OtherKit

# A name.
NAME = re.compile(r'(@(?:"[^"]+"|[\w.$-]+))')
# A name, or a string, in which an `@` is no name. To look for these takes eight times as long.
TOKEN = re.compile(NAME.pattern + r'|c"[^"]*"')
# What no other module sees.
UNSEEN = re.compile(r"define internal |@[^=]* = private ")
# These crates read the command line, which is done once.
COLD = {"clap", "rev_options", "strsim"}
# A function stands in one part alone if this share of the module, or more, is reached by way of it alone.
LEAST = 0.012
# Where more than this is reached by way of a function, it is cut further.
MOST = 0.5


class Part(collections.namedtuple("Part", "text is_cold")):
    """A module of its own, and whether what it does is of no weight."""


class Definition:
    """The text of a function or a value, in its names that the module defines and the gaps around these."""

    def __init__(self, text, defined):
        self.names, self.gaps, end = [], [], 0
        for it in (TOKEN if 'c"' in text else NAME).finditer(text):
            if it[1] in defined:
                self.names.append(it[1])
                self.gaps.append(text[end : it.start()])
                end = it.end()
        self.gaps.append(text[end:])
        self.is_function = text.startswith("define ")
        self.is_constant = " constant " in text
        # Its address has no meaning, if it is a function that is only called.
        self.is_plain = text.startswith("define internal ") or " unnamed_addr constant " in text
        self.lines = text.count("\n")

    def text(self):
        return "".join(it for pair in zip(self.gaps, self.names) for it in pair) + self.gaps[-1]

    def not_called(self):
        """The names of which it does more than to call them."""
        return (name for name, after in zip(self.names, self.gaps[1:]) if not after.startswith("("))


class Module:
    """What `main` reaches of a module, by its names, and the lines around that."""

    def __init__(self, text):
        places, around, end = {}, [], 0
        for start in (it.start() + 1 for it in re.finditer(r"\n(?:define |@)", text)):
            around.append(text[end:start])
            end = text.index("\n}\n", start) + 3 if text.startswith("define ", start) else text.index("\n", start) + 1
            places[NAME.search(text, start)[1]] = start, end
        # (most of the lines around are comments)
        self.around = re.sub(r"^(?:;.*)?\n", "", "".join([*around, text[end:]]), flags=re.M)
        seen = [it for it, (start, _) in places.items() if not UNSEEN.match(text, start)]
        if seen != ["@main"]:
            raise OtherKit(f"its module begins at {', '.join(seen[:9]) or 'no function'}, and not at main")
        found, left = {}, ["@main"]
        while left:
            name = left.pop()
            if name not in found:
                start, end = places[name]
                found[name] = Definition(text[start:end], places)
                left += found[name].names
        self.defined = {it: found[it] for it in places if it in found}
        self.cold = self.made_one()
        self.used = {name: set(it.names) - {name} for name, it in self.defined.items()}
        self.lines = {name: it.lines for name, it in self.defined.items()}

    def made_one(self):
        """Leaves one of those definitions that are the same, and returns the functions whose like are all cold.

        Two are the same if their texts are, but for names of what is the same. So all that may be are put in one class
        first, and a class is cut in more as long as its members name what is in different classes.
        """
        meant = {name for it in self.defined.values() for name in it.not_called()}
        alone = {name for name, it in self.defined.items() if not it.is_plain or it.is_function and name in meant}
        keys = {name: name if name in alone else tuple(it.gaps) for name, it in self.defined.items()}
        before, count = numbered(keys)
        is_done = False
        while not is_done:
            keys = {name: (before[name], *map(before.get, it.names[1:])) for name, it in self.defined.items()}
            before, now = numbered(keys)
            is_done, count = now == count, now
        first, is_cold = {}, {}
        for name, number in before.items():
            first.setdefault(number, name)
            is_cold[number] = is_cold.get(number, True) and crate_of(name) in COLD
        for it in self.defined.values():
            it.names = [first[before[name]] for name in it.names]
        self.defined = {it: self.defined[it] for it in first.values()}
        return {name for number, name in first.items() if is_cold[number] and self.defined[name].is_function}

    def weight(self, names):
        return sum(map(self.lines.get, names))

    def reached(self, root, apart):
        """What the root reaches without a way through functions that stand apart."""
        found, left = set(), [root]
        while left:
            name = left.pop()
            if name not in found and (name == root or name not in apart):
                found.add(name)
                left += self.used[name]
        return found

    def in_post_order(self, without):
        order, seen, path = [], {"@main", *without}, [("@main", iter(self.used["@main"]))]
        while path:
            name, rest = path[-1]
            after = next((it for it in rest if it not in seen), None)
            if after is None:
                order.append(name)
                path.pop()
            else:
                seen.add(after)
                path.append((after, iter(self.used[after])))
        return order

    def dominators(self, order):
        """The immediate dominator of each name: the last one through which all ways to it lead."""
        place = {name: at for at, name in enumerate(order)}
        users = {name: [] for name in order}
        for name in order:
            for it in self.used[name] & users.keys():
                users[it].append(name)
        found, changed = {"@main": "@main"}, True
        while changed:
            changed = False
            for name in reversed(order[:-1]):
                first, *others = (it for it in users[name] if it in found)
                for it in others:
                    while it != first:
                        if place[it] < place[first]:
                            it = found[it]
                        else:
                            first = found[first]
                changed = changed or found.get(name) != first
                found[name] = first
        return found

    def apart(self, entries):
        """The functions that stand in one part alone, of those that are for speed."""
        order = self.in_post_order(entries)
        above, held = self.dominators(order), {it: self.lines[it] for it in order}
        for name in order[:-1]:
            held[above[name]] += held[name]
        least, most = LEAST * held["@main"], MOST * held["@main"]
        return {it for it in order if self.defined[it].is_function and least <= held[it] <= most < held[above[it]]}

    def cut(self, count):
        """What is cold, what each of so many parts holds that are for speed, and the functions that stand apart."""
        hot = self.reached("@main", self.cold)
        entries = {it for name in hot for it in self.used[name] & self.cold}
        apart = self.apart(entries)
        reached = {it: self.reached(it, apart | entries) for it in sorted(apart)}
        parts = [self.reached("@main", apart | entries), *(set() for _ in range(count - 1))]
        for name in sorted(reached, key=lambda it: -self.weight(reached[it])):
            # (what it shares with a part counts, since each part holds that itself)
            min(parts, key=lambda it: self.weight(it) + 2 * self.weight(reached[name] - it)).update(reached[name])
        cold = set().union(*(self.reached(it, apart) for it in entries))
        return cold, [it for it in parts if it], apart | entries

    def text_of(self, part, apart, shared):
        """A part as a module of its own."""
        needed = set(part).union(*(self.used[it] for it in part))
        told = (self.told(name, name in part, name in apart, name in shared) for name in self.defined if name in needed)
        return self.around + "".join(told)

    def told(self, name, is_here, is_apart, is_shared):
        text = self.defined[name].text()
        if is_shared:
            # (the linker takes one of several that are weak)
            return text.replace("= private global ", "= weak hidden global ", 1)
        if not is_apart:
            return text
        if is_here:
            return text.replace("define internal ", "define hidden ", 1)
        return text[: text.index(" {\n")].replace("define internal ", "declare hidden ", 1) + "\n"


def crate_of(name):
    return name.lstrip('@"').partition("::")[0]


def numbered(keys):
    """A number for each different key, by what has that key, and how many they are."""
    numbers = {}
    return {name: numbers.setdefault(key, len(numbers)) for name, key in keys.items()}, len(numbers)


def parts_of(text, count):
    """A module's part that is cold, and at most so many parts that are for speed."""
    module = Module(text)
    lacking = COLD - {crate_of(it) for it in module.cold}
    if lacking:
        raise OtherKit(f"its module has no function that is known to be of {', '.join(sorted(lacking))}")
    cold, hot, apart = module.cut(count)
    # A value that can change, and that several parts use, has to be one.
    values = [name for name, it in module.defined.items() if not it.is_function and not it.is_constant]
    shared = {it for it in values if sum(it in part for part in [cold, *hot]) > 1}
    if any("= private global " not in module.defined[it].text() for it in shared):
        raise OtherKit(f"its module has values of another kind: {', '.join(sorted(shared))[:200]}")
    return [Part(module.text_of(it, apart, shared), it is cold) for it in [*hot, cold]]
