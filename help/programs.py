"""The words of each program that is called by its name, kmsrest and the bridges, in one form: man pages and completions are made of it.

kmsrest's are the table in commands.py. A bridge's are what its own parser of words has: `Parsed` catches that where the program
begins to read its words, so no word stands in a second place."""
import argparse
import ast
import contextlib
import importlib
import os
import re
import sys
from collections.abc import Iterator
from dataclasses import dataclass
from pathlib import Path

from commands import COMMANDS, OWN_PAGES, OWN_WORDS, REPEATED

TOP = Path(__file__).resolve().parent.parent
BRIDGES = TOP / "bridges"
# What stands for a file's name in a usage line.
FILES = ("FILE", "F", "M", "C", "DIR", "FOLDER")


@dataclass(frozen=True)
class Option:
    """An option with its dashes; `value` is what stands for its value, and nothing where it takes none."""

    name: str
    value: str = ""
    text: str = ""
    choices: tuple[str, ...] = ()
    repeats: bool = False

    @property
    def takes_file(self) -> bool:
        """Whether its value is a file's name."""
        return self.value in FILES


@dataclass(frozen=True)
class Program:
    """A program, or a command of one: its words, and what a page tells of it beside them."""

    name: str
    summary: str
    options: tuple[Option, ...] = ()
    # What stands in the words without an option's name; files' names are offered for it.
    arguments: tuple[Option, ...] = ()
    commands: tuple["Program", ...] = ()
    # What may stand in place of a command.
    names: tuple[str, ...] = ()
    usage: str = ""
    about: str = ""
    notes: str = ""


class Unreadable(Exception):
    """Why a program's words can't be read here."""


# ---- kmsrest


def command_program(command) -> Program:
    """A command of the table."""
    options = [Option(f"--{name}", value, text, repeats=name in REPEATED) for name, (value, text) in command.texts.items()]
    return Program(command.name, command.summary, tuple(options), usage=command.words())


def kmsrest() -> Program:
    """kmsrest, with its commands and the script's own words; one that stands for a bridge has that bridge's words."""
    commands = [command_program(command) for command in COMMANDS]
    names = tuple(command.name for command in commands)
    options = [] if "--help" in OWN_WORDS else [Option("--help", text="the commands")]
    for words, text in OWN_WORDS.items():
        word = words.split(" ")[0]
        if word.startswith("--"):
            options.append(Option(word, text=text))
        elif is_bridge(BRIDGES / f"kmsrest-{word}"):
            own_bridge = bridge(BRIDGES / f"kmsrest-{word}")
            commands.append(Program(word, text, own_bridge.options, own_bridge.arguments))
        else:
            own = names + tuple(OWN_PAGES) if word == "help" else ()
            commands.append(Program(word, text, names=own))
    return Program("kmsrest", "seal, read and rewrite what the API server stores", tuple(options), commands=tuple(commands))


# ---- the bridges


class Parsed(Exception):
    """A program began to read its words, by this parser."""

    def __init__(self, parser: argparse.ArgumentParser):
        super().__init__()
        self.parser = parser


@contextlib.contextmanager
def caught_parsers() -> Iterator[None]:
    """Each parser that is asked for words here says of itself that it was."""

    def tell(parser, *_words, **_more):
        raise Parsed(parser)

    # (a program may have set up how it ends, too)
    kept, hook = argparse.ArgumentParser.parse_args, sys.excepthook
    argparse.ArgumentParser.parse_args = tell
    try:
        yield
    finally:
        argparse.ArgumentParser.parse_args, sys.excepthook = kept, hook


def main_module(program: Path) -> str:
    """The module whose `main` the program calls."""
    for node in ast.walk(ast.parse(program.read_text(encoding="utf-8"))):
        if isinstance(node, ast.ImportFrom) and any(alias.name == "main" for alias in node.names):
            return node.module
    raise Unreadable(f"{program.name} imports no main")


def parser_of(program: Path) -> argparse.ArgumentParser:
    """The parser of a bridge's words."""
    os.environ.setdefault("GRPC_VERBOSITY", "NONE")
    if str(program.parent) not in sys.path:
        sys.path.insert(0, str(program.parent))
    try:
        main = importlib.import_module(main_module(program)).main
    except ModuleNotFoundError as missing:
        raise Unreadable(f"{program.name}: this Python has no module {missing.name}") from None
    with caught_parsers():
        try:
            main([])
        except Parsed as it:
            return it.parser
    raise Unreadable(f"{program.name} reads its words by no argparse")


def option_of(action: argparse.Action) -> Option:
    """An option, or an argument without a name, as argparse has it."""
    value = ""
    if action.nargs != 0:
        value = action.metavar or ("|".join(action.choices) if action.choices else action.dest.upper())
    name = action.option_strings[-1] if action.option_strings else ""
    text = " ".join((action.help or "").split()).replace("%%", "%")
    return Option(name, value, text, tuple(action.choices or ()), isinstance(action, argparse._AppendAction))


def bridge(program: Path) -> Program:
    """A bridge: its summary is the first sentence of what its file says of itself."""
    parser = parser_of(program)
    head = ast.get_docstring(ast.parse(program.read_text(encoding="utf-8"))) or ""
    summary = re.split(r"(?<=[.?!]) ", " ".join(head.split()))[0].rstrip(".")
    words = [option_of(action) for action in parser._actions]
    return Program(
        program.name,
        summary[:1].lower() + summary[1:],
        tuple(word for word in words if word.name),
        tuple(word for word in words if not word.name),
        usage=" ".join(parser.format_usage().split()).removeprefix("usage: ").removeprefix(program.name).strip(),
        about=" ".join((parser.description or "").split()).removeprefix(f"{program.name}: "),
        notes=" ".join((parser.epilog or "").split()),
    )


def is_bridge(path: Path) -> bool:
    return path.is_file() and os.access(path, os.X_OK)


def bridges() -> list[Program]:
    """Each program that stands in bridges/."""
    return [bridge(path) for path in sorted(BRIDGES.iterdir()) if is_bridge(path)]
