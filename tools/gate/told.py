"""The answers that the lines of JSON tell, which `lrudb run --json` and `lrudb open --json` write.

Each line is one object with the fields of LINE, in this order, and its answer is a list of objects. FORMS has the lines
of text that these stand for: in each, the names are those of all fields but `kind` and `data`, in their order.
"""
import json
import re

LINE = ["line", "node", "command", "answer"]
# A name of a field stands in braces.
FORMS = """
VALUE {key} {flags} {bytes}
VALUE {key} {flags} {bytes} {cas}
ITEM {key} {class} {queue} {flags} {expires} {time} {cas} {bits} {bytes}
CHUNK {page}:{slot}
QUEUE{entries}
FREE{chunks}
PAGE {page} {class}
COUNTERS evicted {evicted} reclaimed {reclaimed} crawler_reclaimed {crawler_reclaimed} outofmemory {outofmemory}\
 moves_to_cold {moves_to_cold} moves_to_warm {moves_to_warm} moves_within_lru {moves_within_lru}
CLASS {class} size {size} pages {pages} free {free} hot {hot} warm {warm} cold {cold} temp {temp}
GLOBALS now {now} cas {cas} mark {mark} flush {flush} mover {mover} bump {bump}
NODE {node}
NODE {node} TURNS {turns}
STEP {node} {parent} {clock} {step} {outcome} -
STEP {node} {parent} {clock} {step} {outcome} {key}
STEP {node} {parent} {clock} {step} {outcome} {class} {queue}
PRUNED {node}
MARK {name} {node}
LEFT {node} {cause}
LEFT {node} {cause} {evidence} {ts}
LEFT {node} {cause} {evidence} {after} {before}
NEVER since {since}
ERROR {message}
CLIENT_ERROR {message}
SERVER_ERROR {message}
"""
# The rows that do not begin with their kind.
UNNAMED = {
    "NUMBER": ["{number}"],
    "TREE": ["{node} {parent} {step} {outcome}"],
    "GONE": [
        "{node} {key} {cause}",
        "{node} {key} {cause} {evidence} {ts}",
        "{node} {key} {cause} {evidence} {after} {before}",
    ],
    "HELP": ["{text}"],
    "EVENT": [
        "{node} {event} {class} {queue}",
        "{node} {event} {from} {to}",
        "{node} {event} {cause}",
        "{node} {event} {cause} {evidence} {ts}",
        "{node} {event} {cause} {evidence} {after} {before}",
    ],
}
# What stands behind the evidence and the seconds, and not in the text: the step that pushed a key out, if one did.
CULPRIT = ["key", "connection", "step"]
FIELD = re.compile(r"{(\w+)}")
# The commands whose answer is a list, at whose end the text has `END`, and the errors in its place.
LISTS = ("get", "gets", ":tree", ":pages", ":classes", ":story", ":gone", ":marks", ":help")
ERRORS = ("ERROR", "CLIENT_ERROR", "SERVER_ERROR", "NOHELP")
# The objects in the place of a value, each with its names in order and how it is written.
VALUES = [
    (["hex"], lambda it: bytes.fromhex(it["hex"])),
    (["items", "bytes"], lambda it: b"%d %d" % tuple(it.values())),
    (["source", "target", "page", "slot"], lambda it: b"%d,%d,%d,%d" % tuple(it.values())),
]


def by_fields():
    """The forms by their kind and the names of their fields."""
    forms = [(it.split()[0].split("{")[0], it) for it in FORMS.split("\n") if it]
    forms += [(kind, it) for kind, some in UNNAMED.items() for it in some]
    return {(kind, *FIELD.findall(form)): form for kind, form in forms}


BY_FIELDS = by_fields()


def once(pairs):
    """An object, of which each name stands once."""
    made = dict(pairs)
    if len(made) != len(pairs):
        raise ValueError(f"a name stands twice in {pairs}")
    return made


def written(value):
    """A value as a line of text has it."""
    if value is None:
        return b"-"
    if isinstance(value, str):
        return value.encode()
    if isinstance(value, int) and not isinstance(value, bool):
        return b"%d" % value
    if isinstance(value, dict):
        for names, how in VALUES:
            if list(value) == names:
                return how(value)
    raise ValueError(f"{value} is no value")


def listed(name, values):
    """The entries of a queue, or free chunks, each behind a space."""
    if name == "entries":
        return b"".join(b" *" if it is None else b" =" + written(it) for it in values)
    return b"".join(b" %d:%d" % (it["page"], it["slot"]) for it in values if list(it) == ["page", "slot"])


def without_culprit(row):
    """The fields of an object without the step that pushed a key out, which stands last where there is an evidence."""
    if "evidence" not in row:
        return row
    name, culprit = row.popitem()
    if name != "culprit" or culprit is not None and (list(culprit) != CULPRIT or row["cause"] != "evicted"):
        raise ValueError(f"{name} of {row} is {culprit}")
    return row


def row_of(row):
    """The line of text that an object of an answer stands for, with its data."""
    row = without_culprit(dict(row))
    kind, data = written(row.pop("kind")), row.pop("data", None)
    if not row and (kind.decode(), "message") not in BY_FIELDS or kind == b"ERROR" and not row:
        return kind + b"\r\n"
    text = b""
    at = 0
    form = BY_FIELDS[(kind.decode(), *row)]
    for field in FIELD.finditer(form):
        value = row[field[1]]
        text += form[at : field.start()].encode()
        text += listed(field[1], value) if isinstance(value, list) else written(value)
        at = field.end()
    text += form[at:].encode() + b"\r\n"
    return text if data is None else text + written(data) + b"\r\n"


def answer_of(line, number):
    """The answer that a line of JSON tells, the so manieth."""
    told = json.loads(line, object_pairs_hook=once)
    if list(told) != LINE or told["line"] != number:
        raise ValueError(f"line {number} is {line}")
    rows = told["answer"]
    if any(it["kind"] == "NODE" and it["node"] != told["node"] for it in rows):
        raise ValueError(f"line {number} is behind another node: {line}")
    is_whole = told["command"] in LISTS and not any(it["kind"] in ERRORS for it in rows)
    return b"".join(map(row_of, rows)) + (b"END\r\n" if is_whole else b"")


def answers_of(text):
    """The answers that lines of JSON tell, word for word. What is no such line is a ValueError or a KeyError."""
    if text and not text.endswith(b"\n"):
        raise ValueError("the last line has no end")
    return b"".join(answer_of(it, number) for number, it in enumerate(text.split(b"\n")[:-1], 1))
