"""Messages in bytes, as terms of Message (docs/WIRE.md)."""

from . import terms

OPERATIONS = {
    1: "Invoke", 2: "Default", 3: "Construct", 4: "Get", 5: "Put", 6: "Remove", 7: "HasMethod", 8: "HasProperty", 9: "Enumerate",
}
WITH_KEY = {1, 4, 5, 6, 7, 8}
WITH_VALUES = {1, 2, 3}


class Reader:
    """Bytes, of which some were read. The format is not tested: a body that isn't of it ends in an error."""

    def __init__(self, data):
        self.data, self.at = data, 0

    def take(self, count):
        taken = self.data[self.at : self.at + count]
        if len(taken) < count:
            raise ValueError("a message is cut short")
        self.at += count
        return taken

    def number(self, size=4):
        return int.from_bytes(self.take(size), "big")

    def byte(self):
        return str(self.number(1))

    def integer(self):
        return terms.integer(int.from_bytes(self.take(4), "big", signed=True))

    def text(self):
        return terms.text(self.counted())

    def counted(self):
        return self.take(self.number(2))

    def key(self):
        if self.number(1) == 0:
            return terms.applied("Str", self.text())
        return terms.applied("IntKey", self.integer())

    def value(self):
        kind = self.number(1)
        if kind < 2:
            return ["values.Void", "values.Null"][kind]
        if kind == 2:
            return terms.applied("values.Bool", terms.truth(self.number(1)))
        if kind == 3:
            return terms.applied("values.Int", self.integer())
        if kind == 4:
            return terms.applied("values.Double", terms.numbers(self.take(8)))
        if kind == 5:
            return terms.applied("values.Text", self.text())
        return terms.applied("values.Object", terms.name(["Page", "Plug"][self.number(1)], self.number(1), self.number()))

    def several(self, read, count):
        return terms.items([read() for _ in range(count)])

    def release(self):
        return terms.record([("instance", self.byte()), ("serial", str(self.number())), ("times", str(self.number()))])

    def range(self):
        return terms.record([("offset", self.integer()), ("length", str(self.number()))])

    def reason(self):
        return terms.reason(self.number(1))

    def code(self):
        return terms.code(self.number(1))


def fields(reader, forms):
    """Items of one form each: b a byte, n a number, i an integer, t a text, r a reason, c a code, v a value."""
    read = {
        "b": reader.byte, "n": lambda: str(reader.number()), "i": reader.integer, "t": reader.text, "r": reader.reason,
        "c": reader.code, "v": reader.value,
    }
    return [read[form]() for form in forms]


def new(reader):
    instance, mode, mime = fields(reader, "bbt")
    return [instance, mode, mime, reader.several(reader.text, 2 * reader.number(1))]


def write(reader):
    return fields(reader, "bnn") + [terms.text(reader.counted())]


def request_read(reader):
    return fields(reader, "bn") + [reader.several(reader.range, reader.number(1))]


def call(reader):
    instance, serial = fields(reader, "bn")
    code = reader.number(1)
    operation = terms.applied("ops." + OPERATIONS[code], *([reader.key()] if code in WITH_KEY else []))
    count = reader.number(1) if code in WITH_VALUES else 1 if code == 5 else 0
    return [instance, serial, operation, reader.several(reader.value, count)]


def idents(reader):
    return [reader.several(reader.key, reader.number(1))]


KINDS = {
    0x01: ("Hello", "bbb"), 0x02: ("New", new), 0x03: ("Destroy", "b"), 0x04: ("Scriptable", "b"), 0x05: ("Turn", ""),
    0x06: ("NewStream", "bnttn"), 0x07: ("WriteReady", "bn"), 0x08: ("Write", write), 0x09: ("AsFile", "bnt"),
    0x0A: ("DestroyStream", "bnr"), 0x0B: ("Notify", "btri"), 0x0C: ("Shutdown", ""), 0x20: ("Window", "b"),
    0x21: ("GetUrl", "bti"), 0x22: ("RequestRead", request_read), 0x23: ("EndStream", "bnr"), 0x40: ("Call", call),
    0x41: ("True", "v"), 0x42: ("False", ""), 0x43: ("Threw", "t"), 0x44: ("Idents", idents), 0x45: ("Code", "c"),
    0x46: ("Number", "i"), 0x47: ("Done", ""),
}


def message(body):
    """The message that a body says."""
    reader = Reader(body)
    kind, depth, releases = reader.number(1), reader.number(1), reader.number(2)
    given_back = reader.several(reader.release, releases)
    constructor, forms = KINDS[kind]
    arguments = fields(reader, forms) if isinstance(forms, str) else forms(reader)
    if reader.at != len(body):
        raise ValueError("a message is too long")
    level = terms.record([("level", str(depth % 128)), ("task", terms.truth(depth >= 128))])
    return terms.record([("depth", level), ("releases", given_back), ("body", terms.applied("payloads." + constructor, *arguments))])


def bodies(data):
    """The bodies of the whole messages at the front of these bytes, each with the place of its message."""
    found, at = [], 0
    while at + 4 <= len(data):
        end = at + 4 + int.from_bytes(data[at : at + 4], "big")
        if end > len(data):
            break
        found.append((at, data[at + 4 : end]))
        at = end
    return found


def count(data, size):
    """How many whole messages the first so many bytes hold."""
    return len(bodies(data[:size]))


def files(data):
    """The streams whose content was put into a file, in order, each with the URL of its resource."""
    urls, found = {}, []
    for _, body in bodies(data):
        reader = Reader(body)
        kind, _, releases = reader.number(1), reader.number(1), reader.number(2)
        reader.take(9 * releases + (1 if kind in (0x06, 0x09) else 0))
        if kind == 0x06:
            stream = reader.number()
            urls[stream] = reader.counted()
        elif kind == 0x09:
            stream = reader.number()
            found.append((stream, urls[stream]))
    return found
