"""The words of a line, and the literals of the script languages and of the journals (docs/SCRIPTS.md)."""

from . import terms


def words(line):
    """The words of a line: a quoted text is a part of one word, whatever stands in it."""
    found, word, quoted, escaped = [], "", False, False
    for letter in line:
        if letter == " " and not quoted:
            if word:
                found.append(word)
            word = ""
            continue
        word += letter
        if escaped:
            escaped = False
        elif quoted and letter == "\\":
            escaped = True
        elif letter == '"':
            quoted = not quoted
    return found + [word] if word else found


def is_text(word):
    return len(word) >= 2 and word.startswith('"') and word.endswith('"')


def text_bytes(word):
    """The bytes that a quoted text says."""
    if not is_text(word):
        raise ValueError("no text: " + word)
    said, rest = b"", word[1:-1]
    while rest:
        if rest.startswith("\\x"):
            said, rest = said + bytes([int(rest[2:4], 16)]), rest[4:]
        elif rest.startswith("\\"):
            said, rest = said + rest[1].encode(), rest[2:]
        else:
            said, rest = said + rest[0].encode(), rest[1:]
    return said


def text(word):
    return terms.text(text_bytes(word))


def key(word):
    """An identifier: a text or an integer."""
    return terms.applied("Str", text(word)) if is_text(word) else terms.applied("IntKey", terms.integer(int(word)))


def register(word):
    if not word.startswith("$"):
        raise ValueError("no register: " + word)
    return str(int(word[1:]))


def constant(word):
    """A value that a script can write."""
    if word in ("void", "null"):
        return "values." + word.capitalize()
    if word in ("true", "false"):
        return terms.applied("values.Bool", word)
    if is_text(word):
        return terms.applied("values.Text", text(word))
    if word.startswith("d:"):
        return terms.applied("values.Double", terms.numbers(bytes.fromhex(word[2:])))
    return terms.applied("values.Int", terms.integer(int(word)))


def operand(word):
    return terms.applied("Reg", register(word)) if word.startswith("$") else terms.applied("Const", constant(word))


def object_name(word):
    side, instance, serial = word.split(":")
    return terms.name({"page": "Page", "plug": "Plug"}[side], int(instance), int(serial))


def printed_value(said):
    """A value as a journal prints it, and whether the object that it names is dead."""
    kind, rest = said[0], said[1:]
    if kind == "object":
        return terms.applied("values.Object", object_name(rest[0])), terms.truth(rest[1:] == ["dead"])
    if kind == "double":
        return terms.applied("values.Double", terms.numbers(bytes.fromhex(rest[0]))), "false"
    return constant(rest[0] if rest else kind), "false"
