"""Terms of the specification language, as text."""

CODE_NAMES = [
    "NoError", "Generic", "InvalidInstance", "InvalidFunctable", "ModuleLoadFailed", "OutOfMemory", "InvalidPlugin",
    "InvalidPluginDir", "IncompatibleVersion", "InvalidParam", "InvalidUrl", "FileNotFound", "NoData", "StreamNotSeekable",
]
REASON_NAMES = ["Done", "NetworkErr", "UserBreak"]


def applied(name, *arguments):
    """A constructor and its arguments; each of them that has several words stands in parentheses."""
    return " ".join([name] + [in_parentheses(argument) for argument in arguments])


def in_parentheses(term):
    is_one_word = " " not in term and "\n" not in term
    is_record = term.startswith("record {") and term.endswith("}")
    return term if is_one_word or (term.startswith("(") and not is_record) else "(" + term + ")"


def items(terms):
    """A list on one line."""
    return "[]" if not terms else "(" + " ∷ ".join(item(term) for term in terms) + " ∷ [])"


def item(term):
    return in_parentheses(term) if term.startswith("record") else term


def rows(terms, indent):
    """A list with an item a line, which begins on a line that is indented by so many spaces."""
    if not terms:
        return "[]"
    space = "\n" + " " * (indent + 4)
    return "(" + space + (" ∷" + space).join(item(term) for term in terms) + " ∷ [])"


def record(fields):
    return "record { " + "; ".join(name + " = " + term for name, term in fields) + " }"


def record_rows(fields, indent):
    """A record with a field a line, which begins on a line that is indented by so many spaces."""
    space = "\n" + " " * indent
    return "record {" + "".join(space + "  " + name + " = " + term + ";" for name, term in fields) + space + "}"


def integer(number):
    return "pos %d" % number if number >= 0 else "negsuc %d" % (-number - 1)


def truth(is_so):
    return "true" if is_so else "false"


def text(data):
    """A list of bytes: the codes of a word where all of them are plain."""
    if data and all(0x20 <= byte < 0x7F and byte not in b'"\\' for byte in data):
        return 'codes "%s"' % data.decode("ascii")
    return numbers(data)


def numbers(values):
    return items([str(value) for value in values])


def code(number):
    return CODE_NAMES[number]


def reason(number):
    return "reasons." + REASON_NAMES[number]


def name(side, instance, serial):
    return record([("side", "sides." + side), ("instance", str(instance)), ("serial", str(serial))])


def optional(term):
    return "None" if term is None else applied("Some", term)
