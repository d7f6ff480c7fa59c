"""The lines that the bridges may print, read from their sources: of each text that is raised, printed or handed on, what it may
look like."""
import ast
import itertools
from collections.abc import Iterator
from pathlib import Path

from support import TOP

# What takes a text that a person reads: errors, troubles, and what is printed.
TAKERS = {"Refused", "NoAnswer", "TooLarge", "kind", "ConfigRefused", "NoRequest", "print", "add", "ArgumentTypeError", "_tell", "say", "tell", "OutputFailed"}
# Functions that answer such a text.
ANSWERERS = {"lines", "worn", "unfit", "first_breach", "_status_breach", "_wrapped_breach", "_key_id_breach"}
# What may stand in a text's holes.
FILLINGS = ("x", "7", "No such file or directory", "UNAVAILABLE", "the key has a space")
# How a text of these takers and answerers becomes a line.
AROUND = {
    "ArgumentTypeError": "error: argument --only: {}",
    "NoRequest": "request: {}",
    "first_breach": "status: {}: words",
    "_status_breach": "status: {}: words",
    "_wrapped_breach": "encrypt: {}: words",
    "_key_id_breach": "status: {}: words",
    "unfit": "/registry/secrets/d/s: {}",
}
# Texts of standard output that aren't a line by themselves, or no line of text: JSON, metrics, a terminal's progress.
NO_LINES = ("\r", "#", "{", "kmsrest_stored_values")
PREFIXES = ("etcd-to-store: ", "store-to-etcd: ", "etcd-audit: ", "kms-bridge: ")


def holes(node: ast.expr) -> list[str | None]:
    """A text's parts; None for what is put in."""
    if isinstance(node, ast.Constant) and isinstance(node.value, str):
        return [node.value]
    if isinstance(node, ast.JoinedStr):
        return [part.value if isinstance(part, ast.Constant) else None for part in node.values]
    return [None]


def texts(node: ast.expr) -> list[list[str | None]]:
    """What an expression may be: of a list, or what is made of one, its parts."""
    if isinstance(node, ast.IfExp):
        return texts(node.body) + texts(node.orelse)
    if isinstance(node, ast.List):
        return [text for part in node.elts for text in texts(part)]
    if isinstance(node, (ast.GeneratorExp, ast.ListComp)):
        return texts(node.elt)
    if isinstance(node, ast.Starred):
        return texts(node.value)
    return [holes(node)]


def name_of(call: ast.Call) -> str:
    """What is called; a log isn't read here."""
    if isinstance(call.func, ast.Name):
        return call.func.id
    if not isinstance(call.func, ast.Attribute) or getattr(call.func.value, "attr", "") == "_log":
        return ""
    return call.func.attr


def spoken(call: ast.Call) -> Iterator[list[str | None]]:
    """What a call says; of several arguments of `print` one behind another."""
    name = name_of(call)
    if name in TAKERS and call.args:
        options = [texts(argument) for argument in (call.args if name == "print" else call.args[:1])]
        for parts in itertools.product(*options):
            yield [piece for number, part in enumerate(parts) for piece in ([" "] if number else []) + part]


def of_module(path: Path) -> Iterator[tuple[str, list[str | None]]]:
    """Each text with what takes or answers it."""
    tree = ast.parse(path.read_text(encoding="utf-8"))
    for node in ast.walk(tree):
        if isinstance(node, ast.Call):
            yield from ((name_of(node), text) for text in spoken(node))
        elif isinstance(node, ast.FunctionDef) and node.name in ANSWERERS:
            ends = (ast.Return, ast.Yield, ast.YieldFrom)
            returned = [one.value for one in ast.walk(node) if isinstance(one, ends) and one.value is not None]
            yield from ((node.name, text) for value in returned for text in texts(value))


def forms(folder: str) -> Iterator[list[str]]:
    """For each text of a bridge's modules the lines that it may be, of which one must be known."""
    for path in sorted((TOP / "bridges" / folder).glob("*.py")):
        for taker, parts in of_module(path):
            told = "".join(part or "" for part in parts)
            if len(told.strip(" :-")) < 4 or told.startswith(NO_LINES):
                continue
            count = sum(part is None for part in parts)
            lines = []
            for filling in itertools.product(FILLINGS, repeat=count):
                left = iter(filling)
                line = AROUND.get(taker, "{}").format("".join(next(left) if part is None else part for part in parts))
                lines += [line, f"/registry/secrets/d/s: {line}"]
            yield lines
