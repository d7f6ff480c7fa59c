"""kmsrest-try-plan: plans a rollout, and does its moves over a copy of a store.

The moves are `kmsrest plan`'s. They are taken to a fleet file, in which one worker does them in order, and `kmsrest fleet` runs it
over the copy."""

import argparse
import os
import shutil
import subprocess
import sys
import tempfile
from collections.abc import Sequence
from pathlib import Path

FRONT_END = Path(__file__).resolve().parents[2] / "kmsrest"
# Statuses with which the program answers.
ANSWERED = (0, 1)


def parser() -> argparse.ArgumentParser:
    words = argparse.ArgumentParser(
        prog="kmsrest-try-plan",
        allow_abbrev=False,
        description="Plans a rollout with `kmsrest plan`, does its moves over a copy of a store with `kmsrest fleet`, and prints the result of "
        "each, and at last whether each object can be read. It writes only to a temporary folder; the store stays as it is.",
        epilog="KMSREST names another program than the kmsrest beside it. Status: 0 all moves were done, each object was re-encrypted or "
        "was fresh, and each is read; 1 otherwise; 2 wrong words; or kmsrest's own, if it refuses.",
    )
    words.add_argument("store", metavar="STORE", help="the store's file")
    words.add_argument("before", metavar="FROM", help="the configuration that all API servers have")
    words.add_argument("after", metavar="TO", help="the configuration that all are to have")
    words.add_argument("replicas", metavar="REPLICAS", help="how many API servers there are, 1 to 16")
    words.add_argument(
        "--plugin", action="append", default=[], metavar="NAME=PROGRAM", help="the program of a plugin; once for each plugin"
    )
    return words


class Home:
    """The folder in which the rollout is tried, with copies of its files."""

    def __init__(self, folder: str, asked: argparse.Namespace):
        self.folder = folder
        self.plan = ("plan", "--from", "from.json", "--to", "to.json", "--replicas", asked.replicas)
        for name, file in (("from.json", asked.before), ("to.json", asked.after), ("store", asked.store)):
            try:
                shutil.copyfile(file, Path(folder, name))
            except OSError as error:
                sys.exit(f"kmsrest-try-plan: {file}: {error.strerror}")

    def call(self, *words: str) -> str:
        """What the program prints; where it refuses, its line and its status are ours."""
        program = os.environ.get("KMSREST") or str(FRONT_END)
        done = subprocess.run([program, *words], cwd=self.folder, stdin=subprocess.DEVNULL, stdout=subprocess.PIPE, text=True, check=False)
        if done.returncode not in ANSWERED or (done.returncode and not done.stdout):
            sys.exit(done.returncode)
        return done.stdout

    def moves(self) -> list[str]:
        """The plan's moves; the configurations that it makes stand in the folder then."""
        moves = self.call(*self.plan).split("\n")[:-1]
        for phase in ("wide", "turned"):
            Path(self.folder, f"{phase}.json").write_text(self.call(*self.plan, "--show", phase), encoding="utf-8")
        return moves

    def paths(self) -> list[str]:
        """The paths of the store's objects."""
        return [line.split(" ")[2] for line in self.call("list", "--store", "store").split("\n")[:-1]]

    def replies(self, lines: list[str], plugins: list[str]) -> list[str]:
        """The worker's replies to its lines, as a fleet's output has them."""
        Path(self.folder, "fleet").write_text("\n".join(lines) + "\n", encoding="utf-8")
        output = self.call("fleet", "--file", "fleet", "--store", "store", *plugins)
        return [line.split(" ", 2)[2] for line in output.partition("replies\n")[2].split("\n") if line.startswith("w ")]


def plugin_words(plugins: Sequence[str]) -> list[str]:
    """The words that give kmsrest these plugins, from another folder."""
    named = [plugin.partition("=") for plugin in plugins]
    return [word for name, _, program in named for word in ("--plugin", f"{name}={Path(program).resolve()}")]


def script_line(move: str) -> str:
    """A move as a fleet file has it."""
    words = move.split(" ")
    return move if words[0] == "rewrite" else f"reload r{words[1]} {words[2]}.json"


def did(move: str, reply: str) -> bool:
    """Whether the reply says that the move was done."""
    word, said = move.split(" ")[0], reply.split(" ")
    return said[0] == word and (word != "rewrite" or said[3:] == ["0", "0"])


def tried(home: Home, asked: argparse.Namespace) -> int:
    """Does the moves, prints what came of them, and answers the status."""
    moves, paths = home.moves(), home.paths()
    lines = ["fleet 1"] + [f"replica r{number} from.json" for number in range(int(asked.replicas))] + ["worker w r0"]
    lines += [script_line(move) for move in moves] + [f"get {path}" for path in paths]
    told = home.replies(lines, plugin_words(asked.plugin))
    print("".join(f"{move}: {reply}\n" for move, reply in zip(moves, told)), end="")
    unread = [path for path, reply in zip(paths, told[len(moves) :]) if not reply.startswith("get ")]
    print(f"{len(paths) - len(unread)} of {len(paths)} objects are read" + "".join(f"\nunread: {path}" for path in unread))
    done = len(told) == len(moves) + len(paths) and all(did(move, reply) for move, reply in zip(moves, told))
    return 0 if done and not unread else 1


def main(words: list[str]) -> int:
    """Does what the words ask. Answers the status."""
    asked = parser().parse_args(words)
    with tempfile.TemporaryDirectory() as folder:
        return tried(Home(folder, asked), asked)
