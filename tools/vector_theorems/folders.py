"""The theorems of a folder with scripts and what they come to."""

import os
import re

from . import journals, scripts, terms, wire

# More rounds than any run of the vectors has: a side that can do nothing stays as it is.
ROUNDS = 1500

LINES = [
    "Created", "Entered", "HandlerRun", "TaskBegun", "ProxyGone", "Invalidated", "Deallocated", "Noted", "QueueFull",
    "StreamAnswered", "CommandResult",
]
HEADER = """use Rattle.std.proofs.Common.{◌≡◌, ℕ, ℤ, pos, negsuc, List, [], ◌∷◌, refl, true, false, Some, None}
use Rattle.std.specs.Prelude.{codes}
use Rattle.std.specs.Char.{encode_utf8}
use Rattle.std.specs.Fmt.{digits}
use Rattle.std.specs.Str.{is_utf8, chars}
use Rattle.np_values.specs.declared.error.NpError.TheVariants.{%s}
use Rattle.np_values.specs.declared.handler.Handler.TheVariants as handlers
use Rattle.np_values.specs.declared.name.Side.TheVariants as sides
use Rattle.np_values.specs.declared.reason.NpReason.TheVariants as reasons
use Rattle.np_values.specs.declared.value.Value.TheVariants as values
use Rattle.np_values.specs.Text.{is_text}
use Rattle.np_idents.specs.declared.key.IdKey.TheVariants.{Str, Int as IntKey}
use Rattle.np_idents.specs.declared.op.Op.TheVariants as ops
use Rattle.np_script_grammar.specs.declared.action.Action.TheVariants as actions
use Rattle.np_script_grammar.specs.declared.action.Operand.TheVariants.{Reg, Const}
use Rattle.np_script_grammar.specs.declared.class.Member.TheVariants as members
use Rattle.np_script_grammar.specs.declared.command.Command.TheVariants as commands
use Rattle.np_script_grammar.specs.declared.page.Page.{Page}
use Rattle.np_script_grammar.specs.declared.plugin.Plugin.{Plugin}
use Rattle.np_message.specs.Encoding.{encoding}
use Rattle.np_message.specs.Message.{Message}
use Rattle.np_message.specs.declared.payload.Payload.TheVariants as payloads
use Rattle.np_journal.specs.declared.line.Line.TheVariants.{%s}
use Rattle.np_journal.specs.declared.printed.Printed.TheVariants as results
use Rattle.np_journal.specs.declared.streamed.Streamed.TheVariants as streams
use Rattle.np_machine.specs.declared.refusal.Rule.TheVariants as rules
use Rattle.np_machine_plans.specs.AtOnce.{orderly_along}
use Rattle.np_machine_plans.specs.Outcomes.{resource, outcome, direct_outcome, page_bytes, plugin_bytes, lost_outcome, page_outcome, plugin_outcome}
""" % (", ".join(terms.CODE_NAMES), ", ".join(LINES))
UNFOLDING = ["encoding", "digits", "is_text", "is_utf8", "chars", "encode_utf8"]
RULES = {
    "wrong-kind": "WrongKind", "place": "Place", "held": "Held", "unmatched": "Unmatched", "unknown": "Unknown",
    "too-many": "TooMany", "count-full": "CountFull",
}


class Folder:
    """The files of a folder."""

    def __init__(self, path):
        self.path = path
        self.name = os.path.basename(os.path.normpath(path))
        self.files = sorted(os.listdir(path))

    def has(self, name):
        return name in self.files

    def text(self, name):
        with open(os.path.join(self.path, name), encoding="utf-8") as file:
            return file.read()

    def bytes(self, name):
        with open(os.path.join(self.path, name), "rb") as file:
            return file.read()

    def bytes_of(self, name):
        return bytes.fromhex(self.text(name))

    def sent(self, side):
        return self.bytes_of(side + ".hex")

    def numbered(self, prefix):
        """The numbers behind this prefix in the names of files."""
        return sorted(int(name[len(prefix):]) for name in self.files if name.startswith(prefix))


def module(name):
    """The module of a folder's theorems."""
    return "".join(word[:1].upper() + word[1:] for word in ("run-" + name).replace("-", " _").split(" "))


def equation(name, left, right, comment):
    return "\n-- %s\n%s : %s ≡ %s\nunfolding %s\n%s = refl\n" % (comment, name, left, right, " ".join(UNFOLDING), name)


def theorem(name, left, fields, comment):
    return equation(name, left, terms.record_rows(fields, 0), comment)


def definition(name, kind, term):
    return "\nabbrev %s : %s\n%s = %s\n" % (name, kind, name, term)


def put_streams(folder, contents):
    """The streams that were put into files, in order, each with the place of its resource among those of the page."""
    if folder.has("page.hex"):
        places = {url: place for place, (url, _) in enumerate(contents)}
        return [(stream, places[url]) for stream, url in wire.files(folder.sent("page"))]
    by_content = {content: place for place, (_, content) in enumerate(contents)}
    return [(stream, by_content[folder.bytes("np-stream-%d" % stream)]) for stream in folder.numbered("np-stream-")]


def put_files(folder, contents):
    """The files that were put, as terms; each has the content of its resource."""
    put = put_streams(folder, contents)
    if sorted(stream for stream, _ in put) != folder.numbered("np-stream-"):
        raise ValueError("other files were put")
    for stream, place in put:
        if folder.bytes("np-stream-%d" % stream) != contents[place][1]:
            raise ValueError("np-stream-%d has another content" % stream)
    return terms.items([terms.record([("stream", str(stream)), ("resource", str(place))]) for stream, place in put])


def both(folder, contents):
    """The theorems of two scripts."""
    page_lines, end = journals.journal(folder.text("output"))
    plugin_lines, _ = journals.journal(folder.text("notes"))
    if end != ["0"]:
        made = [plugin_exits(page_lines, plugin_lines)]
    else:
        fields = outcome(folder, contents, page_lines, plugin_lines)
        made = [theorem("both-end", "outcome %d page plugin" % ROUNDS, fields, "the run of both")]
        if has_tasks(folder):
            made += [theorem("direct-run", "direct_outcome %d page plugin" % (2 * ROUNDS), fields, "the direct run")] + orderly()
    made += [sends(folder, side) for side in ("page", "plugin") if folder.has(side + ".hex")]
    made += [cut(folder, size) for size in folder.numbered("cut-")]
    return made


def has_tasks(folder):
    """Whether calls of the two sides may cross."""
    return any(line.startswith("task ") for line in folder.text("plugin").split("\n"))


def outcome(folder, contents, page_lines, plugin_lines):
    return [
        ("page", terms.rows(page_lines, 2)), ("plugin", terms.rows(plugin_lines, 2)),
        ("files", put_files(folder, contents)), ("rests", "true"),
    ]


def orderly():
    """In three orders of turns, each message is delivered at once and none is refused."""
    orders = [("in-rounds", ["Page", "Plug"], 700), ("page-ahead", ["Page"] * 6 + ["Plug"], 200), ("plugin-ahead", ["Page"] + ["Plug"] * 6, 200)]
    return [
        equation("orderly-" + name, "orderly_along %s %d page plugin" % (terms.items(["sides." + side for side in turns]), times), "true",
            "each message is delivered at once, and none is refused")
        for name, turns, times in orders
    ]


def sends(folder, side):
    left = "%s_bytes %d page plugin" % (side, ROUNDS)
    return equation(side + "-sends", left, terms.numbers(folder.sent(side)), "all bytes that the %s sends" % side)


def plugin_exits(page_lines, plugin_lines):
    fields = [("page", terms.rows(page_lines, 2)), ("rests", "true")]
    page = theorem("page-ends-alone", "lost_outcome %d None page plugin" % ROUNDS, fields, "the plug-in exits, and the page goes on alone")
    return page + equation("plugin-exits", "(outcome %d page plugin).plugin" % ROUNDS, terms.rows(plugin_lines, 0), "what the plug-in printed")


def cut(folder, size):
    lines, end = journals.journal(folder.text("cut-%d" % size))
    if end[0] not in ("0", "5"):
        raise ValueError("a cut ends otherwise")
    sent = folder.sent("plugin")
    whole = wire.count(sent, size)
    left = "lost_outcome %d (Some %d) page plugin" % (ROUNDS, whole)
    comment = "the plug-in's first %d bytes hold %d whole messages" % (size, whole)
    return theorem("cut-%d" % size, left, [("page", terms.rows(lines, 2)), ("rests", "true")], comment)


def refusal(data, end):
    """What an end line says of a refused message: its place among the messages, the rule and two numbers."""
    if end[0] != "7":
        return "None"
    _, _, at, rule, first, second = end
    places = {str(place): str(number) for number, (place, _) in enumerate(wire.bodies(data))}
    numbers = [first, places[second] if rule == "held" else second]
    fields = [("place", places[at]), ("rule", "rules." + RULES[rule]), ("first", numbers[0]), ("second", numbers[1])]
    return terms.applied("Some", terms.record(fields))


def alone(folder, side, printed):
    """The theorems of one side, for each file of bytes that reach it."""
    return "".join(got(folder, side, printed, name[: -len(".hex")]) for name in folder.files if name.endswith(".hex"))


def got(folder, side, printed, name):
    data = folder.bytes_of(name + ".hex")
    lines, end = journals.journal(folder.text(name + "." + printed))
    messages = "got-" + name
    defined = definition(messages, "List Message", terms.rows([wire.message(body) for _, body in wire.bodies(data)], 0))
    fields = [("refusal", refusal(data, end)), (side, terms.rows(lines, 2))]
    return defined + theorem(name, "%s_outcome %d %s %s" % (side, ROUNDS, side, messages), fields, "the %s with these messages" % side)


MARKS = {"◌≡◌": "≡", "◌∷◌": "∷", "[]": "[]"}


def is_named(name, text):
    """Whether the text uses a name that a `use` line brings in."""
    if name in MARKS:
        return MARKS[name] in text
    return re.search(r"(?<![\w.])%s(?![\w])" % re.escape(name.split(" as ")[-1]), text) is not None


def use_line(line, text):
    """A `use` line with the names that the text uses, or nothing."""
    path, brace, names = line.partition("{")
    if not brace:
        return line if line.rsplit(" ", 1)[1] + "." in text else ""
    used = [name for name in names.rstrip("}").split(", ") if is_named(name, text)]
    return path + "{" + ", ".join(used) + "}" if used else ""


def header(text):
    """The lines that bring in what the text uses."""
    lines = [use_line(line, text) for line in HEADER.splitlines()]
    return "\n".join(line for line in lines if line) + "\n"


def theorems(path):
    """The text of the file of a folder's theorems."""
    folder = Folder(path)
    text, contents = "", []
    if folder.has("page"):
        page, contents = scripts.page(folder.text("page"))
        text += definition("page", "Page", page)
    if folder.has("plugin"):
        text += definition("plugin", "Plugin", scripts.plugin(folder.text("plugin")))
    if folder.has("page") and folder.has("plugin"):
        text += "".join(both(folder, contents))
    elif folder.has("page"):
        text += alone(folder, "page", "output")
    else:
        text += alone(folder, "plugin", "notes")
    return "-- Made by tools/vector-theorems of tests/vectors/%s.\n" % folder.name + header(text) + text
