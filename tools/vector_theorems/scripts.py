"""Page and plug-in scripts in canonical text, as terms of Page and Plugin (docs/SCRIPTS.md)."""

from . import terms
from .words import key, operand, register, text, text_bytes, words

HANDLERS = {
    "new": "New", "destroy": "Destroy", "scriptable": "Scriptable", "newstream": "NewStream", "writeready": "WriteReady",
    "write": "Write", "asfile": "AsFile", "destroystream": "DestroyStream", "urlnotify": "UrlNotify",
}
MEMBERS = {"method": "Method", "default": "Default", "construct": "Construct", "getter": "Getter", "setter": "Setter"}
MODES = {"embed": "1", "full": "2"}


def operands(these):
    return terms.items([operand(word) for word in these])


def number(word):
    return str(int(word))


def integer(word):
    return terms.integer(int(word))


def reason(word):
    return terms.reason(int(word))


# What the rest of a line is, word by word; a function at the end takes all words that are left.
CALLS = {
    "invoke": ("Invoke", [register, operand, key], operands),
    "calldef": ("CallDefault", [register, operand], operands),
    "construct": ("Construct", [register, operand], operands),
    "get": ("Get", [register, operand, key], None),
    "put": ("Put", [operand, key, operand], None),
    "remove": ("Remove", [operand, key], None),
    "hasm": ("HasMethod", [operand, key], None),
    "hasp": ("HasProperty", [operand, key], None),
    "enum": ("Enumerate", [register, operand], None),
    "set": ("Set", [register, operand], None),
    "drop": ("Drop", [register], None),
    "note": ("Note", [operand], None),
}


def ranges(these):
    pairs = zip(these[0::2], these[1::2])
    return terms.items([terms.record([("offset", integer(start)), ("length", number(count))]) for start, count in pairs])


ACTIONS = dict(CALLS, **{
    "add": ("Add", [register, operand, operand], None),
    "fail": ("Fail", [], None),
    "return": ("Return", [operand], None),
    "throw": ("Throw", [text], None),
    "new": ("New", [register, text], None),
    "slot": ("Slot", [number, operand], None),
    "load": ("Load", [register, number], None),
    "self": ("SelfTo", [register], None),
    "ontrue": ("OnTrue", [number], None),
    "onfalse": ("OnFalse", [number], None),
    "oneq": ("OnEq", [operand, operand, number], None),
    "window": ("Window", [register], None),
    "geturl": ("GetUrl", [register, operand, integer], None),
    "reqread": ("RequestRead", [register, operand], ranges),
    "endstream": ("EndStream", [register, operand, reason], None),
    "later": ("Later", [text], None),
    "exit": ("Exit", [number], None),
    "destroy": ("Destroy", [register, number], None),
})


def mode(word):
    return MODES[word]


def texts(these):
    return terms.items([text(word) for word in these])


COMMANDS = dict(CALLS, **{
    "create": ("Create", [text, mode], texts),
    "destroy": ("Destroy", [number], None),
    "scriptable": ("Scriptable", [register, number], None),
    "new": ("New", [register, number, text], None),
    "turn": ("Turn", [], None),
    "open": ("OpenStream", [number, text], None),
    "pump": ("Pump", [number], None),
})


def row(table, kind, line):
    """A line of a table as a constructor with its fields."""
    said = words(line)
    constructor, fields, others = table[said[0]]
    given, left = said[1 : 1 + len(fields)], said[1 + len(fields) :]
    if len(given) != len(fields) or (left and others is None):
        raise ValueError("no such line: " + line)
    arguments = [form(word) for form, word in zip(fields, given)]
    return terms.applied(kind + constructor, *(arguments + ([others(left)] if others else [])))


class Lines:
    """The lines of a script, of which some were read."""

    def __init__(self, script):
        self.left = script.split("\n")
        if self.left.pop() != "":
            raise ValueError("a canonical text ends with its last line's end")

    def next(self):
        return self.left.pop(0)

    def first_word(self):
        return words(self.left[0])[0] if self.left else None


def body(lines):
    """Actions, to the line `end`."""
    found = []
    while lines.first_word() != "end":
        found.append(row(ACTIONS, "actions.", lines.next()))
    lines.next()
    return terms.items(found)


def member(lines):
    said = words(lines.next())
    keys = [key(word) for word in said[1:]]
    return terms.applied("members." + MEMBERS[said[0]], *keys, body(lines))


def class_def(lines, indent):
    _, name, version = words(lines.next())
    is_stored = lines.first_word() == "data"
    if is_stored:
        lines.next()
    members = []
    while lines.first_word() != "endclass":
        members.append(member(lines))
    lines.next()
    return terms.record_rows(
        [("name", text(name)), ("version", version), ("stored", terms.truth(is_stored)), ("members", terms.rows(members, indent + 2))], indent)


def classes(lines, indent):
    found = []
    while lines.first_word() == "class":
        found.append(class_def(lines, indent + 4))
    return terms.rows(found, indent)


def resources(lines):
    """The resources as terms, and for each its URL and content."""
    found, contents = [], []
    while lines.first_word() == "resource":
        _, url, mime, times, piece = words(lines.next())
        found.append(terms.applied("resource", text(url), text(mime), number(times), text(piece)))
        contents.append((text_bytes(url), text_bytes(piece) * int(times)))
    return terms.rows(found, 2), contents


def head(lines, word):
    said = words(lines.next())
    if said[0] != word:
        raise ValueError("no " + word)
    return [("major", said[1]), ("minor", said[2])]


def page(script):
    """The page that a script says, and its resources."""
    lines = Lines(script)
    fields = head(lines, "page") + [("classes", classes(lines, 2))]
    carried, contents = resources(lines)
    if lines.next() != "do":
        raise ValueError("no do")
    commands = [row(COMMANDS, "commands.", line) for line in lines.left]
    return terms.record_rows(fields + [("resources", carried), ("commands", terms.rows(commands, 2))], 0), contents


def plugin(script):
    """The plug-in that a script says."""
    lines = Lines(script)
    fields = head(lines, "plugin") + [("classes", classes(lines, 2))]
    handlers, tasks = [], []
    while lines.first_word() == "handler":
        which = HANDLERS[words(lines.next())[1]]
        handlers.append(terms.record([("which", "handlers." + which), ("body", body(lines))]))
    while lines.first_word() == "task":
        name = text(words(lines.next())[1])
        tasks.append(terms.record([("name", name), ("body", body(lines))]))
    if lines.left:
        raise ValueError("no such line: " + lines.left[0])
    return terms.record_rows(fields + [("handlers", terms.rows(handlers, 2)), ("tasks", terms.rows(tasks, 2))], 0)
