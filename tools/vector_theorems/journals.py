"""Lines of journals, as terms of Line (docs/SCRIPTS.md)."""

from . import terms
from .scripts import HANDLERS
from .words import key, object_name, printed_value, text, words

OPERATIONS = {
    "invoke": "Invoke", "default": "Default", "construct": "Construct", "get": "Get", "set": "Put", "remove": "Remove",
    "hasmethod": "HasMethod", "hasproperty": "HasProperty", "enumerate": "Enumerate",
}
OF_NAME = {"+": "Created", "x": "ProxyGone", "!": "Invalidated", "-": "Deallocated"}


def operation(said):
    return terms.applied("ops." + OPERATIONS[said[0]], *[key(word) for word in said[1:]])


def begun(said):
    """A line of what is run: an entry of an object, a handler, or a task."""
    if not said[0].startswith("inst:"):
        return terms.applied("Entered", object_name(said[0]), operation(said[1:]))
    instance = said[0][len("inst:"):]
    if said[1] == "task":
        return terms.applied("TaskBegun", instance, text(said[2]))
    return terms.applied("HandlerRun", instance, "handlers." + HANDLERS[said[1]])


def streamed(said):
    """An answered stream call."""
    kind, rest = said[0], [int(word) for word in said[1:]]
    if kind in ("new", "ready"):
        call = terms.applied("streams." + kind.capitalize(), terms.integer(rest[0]))
    elif kind == "write":
        call = terms.applied("streams.Write", str(rest[0]), str(rest[1]), terms.integer(rest[2]))
    elif kind == "file":
        call = "streams.File"
    else:
        call = terms.applied("streams." + kind.capitalize(), terms.reason(rest[0]))
    return call


def result(said):
    """The result of a command."""
    kind, rest = said[0], said[1:]
    if kind == "error":
        return terms.applied("results.Code", terms.code(int(rest[0])))
    if kind == "true":
        return terms.applied("results.Yes", *printed_value(rest))
    if kind == "false":
        return "results.No"
    if kind == "threw":
        return terms.applied("results.Threw", text(rest[0]))
    if kind == "ids":
        return terms.applied("results.Ids", terms.items([key(word) for word in rest]))
    if kind == "pumped":
        return terms.applied("results.Pumped", rest[0])
    raise ValueError("no result: " + kind)


def line(said):
    """What a journal's line says."""
    first, rest = said[0], said[1:]
    if first in OF_NAME:
        return terms.applied(OF_NAME[first], object_name(rest[0]))
    if first == ">":
        return begun(rest)
    if first == "n":
        return terms.applied("Noted", *printed_value(rest))
    if first == "q":
        return terms.applied("QueueFull", rest[0][len("inst:"):], text(rest[1]))
    if first == "s":
        return terms.applied("StreamAnswered", rest[0], streamed(rest[1:]))
    return terms.applied("CommandResult", first.rstrip(":"), result(rest))


def journal(printed):
    """The lines that a program printed, as terms, and the words of its end line."""
    lines = [words(line) for line in printed.split("\n")]
    if lines.pop() or lines[-1][0] != "end":
        raise ValueError("no end line")
    return [line(said) for said in lines[:-1]], lines[-1][1:]
