"""Writes the stored run of test_judge, crates/test_judge/stdin and stdout; with the word `check` it compares them instead.

The calls are written here, some by hand and the rest drawn with a fixed seed. What they answer is found by going through
plain lists of generations and needs, on the configurations that reference/ reads; the program itself is never asked.
The lines are those at the head of crates/test_judge/src/acting.rt.
"""

import base64
import json
import random
import sys
from pathlib import Path

sys.dont_write_bytecode = True

from reference import configuration
from reference.board import Board

CRATE = Path(__file__).resolve().parent.parent.parent / "crates" / "test_judge"


# ---- the answers


class Form(Exception):
    """A line isn't of the form."""


class Play:
    """The named settings and the board."""

    def __init__(self):
        self.named, self.board = {}, None

    def at(self, name):
        if name not in self.named:
            raise Form
        return self.named[name]

    def need_of(self, resource, name):
        return resource, configuration.list_for(self.at(name), resource)[0]

    def add(self, key, replica, name):
        if len(self.board.generations) == self.board.room:
            raise Form
        self.board.add(replica, self.at(name))
        if key == "hold":
            self.board.generations[-1].holders += 1
        elif key == "leave":
            self.board.leave(replica)

    def line(self, key, words):
        """What is printed for a line, or None."""
        if key == "settings":
            self.named[words[0]] = configuration.read(words[1].encode())
        elif key == "board":
            self.board = Board(number_of(words[0]))
        elif self.board is None:
            raise Form
        elif key in ("add", "hold", "leave"):
            self.add(key, number_of(words[0]), words[1])
        elif key in ("need", "keep", "undo"):
            need = self.need_of(words[1], words[2])
            if key != "undo":
                self.board.needs[words[0]] = need
        elif key == "drop":
            self.board.needs.pop(words[0], None)
        else:
            return self.question(key, words)

    def question(self, key, words):
        if key in ("judge", "again"):
            return self.board.verdict(number_of(words[-2]), self.at(words[-1]))
        if key == "live":
            return " ".join(["live"] + [str(number) for number, _ in self.board.live()])
        if key == "paths":
            return self.board.paths(*self.need_of(*words))
        raise Form


def number_of(text):
    if not text.isdecimal():
        raise Form
    return int(text)


def answers(lines):
    """What the program prints for the lines."""
    play, printed = Play(), []
    for line in lines:
        key, *words = line.split(" ")
        if key == "#":
            continue
        try:
            answer = play.line(key, words)
        except Form:
            answer = "line"
        if answer is not None:
            printed.append(answer)
    return printed


# ---- the calls

IDENTITY = {"identity": {}}


def key_of(kind, name, byte=1):
    """A provider with one key of 16 equal bytes."""
    secret = base64.b64encode(bytes([byte]) * 16).decode()
    return {kind: {"keys": [{"name": name, "secret": secret}]}}


def plugin(name):
    return {"kms": {"apiVersion": "v2", "name": name, "endpoint": "unix:///p"}}


KEY1, KEY2 = key_of("aescbc", "key1"), key_of("aescbc", "key2", 2)
OTHER1 = key_of("aescbc", "key1", 3)
GCM1, PLUGIN = key_of("aesgcm", "key1"), plugin("plug")


def settings(name, *entries):
    """A line that names settings: entries of patterns, parted by spaces, with providers."""
    resources = [{"resources": patterns.split(" "), "providers": list(providers)} for patterns, providers in entries]
    head = {"apiVersion": configuration.API_VERSION, "kind": configuration.KIND}
    return f"settings {name} " + json.dumps({**head, "resources": resources}, separators=(",", ":"))


def change_of_keys():
    """A change of keys of secrets: the first key alone, both, the second first, the second alone; and another first."""
    yield settings("old", ("secrets", [KEY1, IDENTITY]))
    yield settings("both", ("secrets", [KEY1, KEY2, IDENTITY]))
    yield settings("new", ("secrets", [KEY2, KEY1, IDENTITY]))
    yield settings("last", ("secrets", [KEY2, IDENTITY]))
    yield settings("other", ("secrets", [OTHER1, IDENTITY]))
    yield settings("plain", ("secrets", [IDENTITY]))
    yield from ("# replicas new and both", "board 2", "add 0 new", "add 1 both", "judge 0 last", "judge 0 both", "live")
    yield from ("# a replica that is out", "board 3", "leave 0 both", "judge 1 last", "live", "add 0 both", "judge 1 last")
    yield from ("# a generation that is held and no longer current", "board 3", "hold 0 old", "judge 0 new", "add 0 both")
    yield from ("judge 0 last", "judge 0 both", "live", "# one that is held and current", "board 1", "hold 0 old", "judge 0 last")
    yield from ("# another secret of the name", "board 1", "add 0 old", "judge 1 other", "need /s secrets old", "judge 0 other")
    yield from ("# no generation, and no need", "board 0", "judge 0 last", "live", "paths secrets old")


def stored_objects():
    yield from ("# the least path", "board 0", "need /b secrets old", "need /c secrets old", "need /a secrets old")
    yield from ("judge 0 both", "judge 0 last", "paths secrets old", "drop /a", "judge 0 last", "need /b secrets last")
    yield from ("judge 0 last", "judge 0 old", "paths secrets old", "paths secrets last", "drop /c", "judge 0 last", "drop /c")
    yield from ("# proposals", "board 0", "undo /s secrets old", "judge 0 last", "keep /s secrets old", "judge 0 last")
    yield from ("undo /s secrets last", "judge 0 last", "keep /s secrets last", "judge 0 last", "judge 0 old")
    yield from ("keep /t secrets plain", "paths secrets plain", "undo /r secrets last", "paths secrets last", "judge 0 last")
    yield from ("# another resource's list", "board 0", "need /x pods old", "judge 0 last", "need /x secrets old", "judge 0 last")
    yield settings("plugin", ("secrets pods", [PLUGIN, IDENTITY]))
    yield settings("gcm", ("*.*", [GCM1]))
    yield from ("need /x pods plugin", "judge 0 gcm", "need /x nodes plain", "judge 0 gcm", "need /x nodes gcm", "judge 0 plain")


def classes():
    """Each reason at each kind of class, and which class comes first."""
    for name, pattern in (("exact", "secrets"), ("apps", "*.apps"), ("core", "*."), ("rest", "*.*")):
        for word, providers in (("key", [KEY1, IDENTITY]), ("kms", [PLUGIN, KEY1]), ("gcm", [GCM1]), ("none", [IDENTITY, KEY1])):
            yield settings(f"{name}-{word}", (pattern, providers))
    for name in ("exact", "apps", "core", "rest"):
        pairs = [(old, new) for old in ("key", "kms", "gcm", "none") for new in ("key", "kms", "gcm", "none")]
        for old, new in pairs:
            yield from ("board 1", f"add 0 {name}-{old}", f"judge 1 {name}-{new}")
        for other in ("exact", "apps", "core", "rest"):
            yield from ("board 1", f"add 0 {name}-key", f"judge 1 {other}-none", f"judge 1 {other}-kms")
    yield settings("all-key", ("secrets", [KEY1]), ("*.apps", [KEY1]), ("*.*", [KEY1]))
    yield settings("all-gcm", ("secrets", [KEY1, GCM1]), ("*.apps", [GCM1]), ("*.*", [GCM1]))
    yield from ("board 2", "add 0 all-key", "add 1 all-gcm", "judge 2 all-key", "judge 2 all-gcm", "judge 1 all-key", "judge 0 all-gcm")


def lines_out_of_form():
    yield from ("board x", "board 1", "add 0 nobody", "add x old", "add 0 old", "add 1 old", "judge 0 nobody", "judge x old")
    yield from ("paths secrets nobody", "need /a secrets nobody", "jump", "live")


PATTERNS = ("secrets", "pods", "pods.apps", "jobs.batch", "*.apps", "*.batch", "*.", "*.*")
RESOURCES = ("secrets", "pods", "pods.apps", "jobs.batch", "nodes")
PATHS = tuple(f"/{a}{b}" for a in "abc" for b in ("", "/x", "0"))
SOURCE = random.Random(20261127)


def drawn_settings(name):
    entries = []
    for _ in range(SOURCE.randint(1, 3)):
        patterns = []
        for pattern in SOURCE.sample(PATTERNS, SOURCE.randint(1, 2)):
            if not any(configuration.overlap(pattern, other) for other in patterns):
                patterns.append(pattern)
        providers = SOURCE.sample((IDENTITY, KEY1, KEY2, GCM1, PLUGIN), SOURCE.randint(1, 4))
        if SOURCE.random() < 0.1:
            providers = [OTHER1 if provider == KEY1 else provider for provider in providers]
        entries.append((" ".join(patterns), providers))
    return settings(name, *entries)


def near_settings(name):
    """Settings that differ in little, so that verdicts pass too."""
    providers = [KEY1, KEY2, GCM1, IDENTITY]
    SOURCE.shuffle(providers)
    entries = [(pattern, providers) for pattern in SOURCE.sample(("secrets", "*.apps", "*.*"), SOURCE.randint(1, 3))]
    return settings(name, *entries, ("*.*", SOURCE.sample(providers, SOURCE.choice((3, 4, 4, 4)))))


def drawn_boards(names, boards):
    for _ in range(boards):
        yield "board 8"
        for _ in range(SOURCE.randint(0, 8)):
            yield f"{SOURCE.choice(('add', 'add', 'hold', 'leave'))} {SOURCE.randrange(3)} {SOURCE.choice(names)}"
        for _ in range(SOURCE.randint(0, 12)):
            key, path = SOURCE.choice(("need", "keep", "undo", "drop")), SOURCE.choice(PATHS)
            yield f"drop {path}" if key == "drop" else f"{key} {path} {SOURCE.choice(RESOURCES)} {SOURCE.choice(names)}"
        for name in SOURCE.sample(names, 5):
            yield f"judge {SOURCE.randrange(4)} {name}"
        yield f"paths {SOURCE.choice(RESOURCES)} {SOURCE.choice(names)}"
        yield "live"


def calls():
    yield "live"
    yield from change_of_keys()
    yield from lines_out_of_form()
    yield from stored_objects()
    yield from classes()
    yield from ("# drawn settings and boards",)
    names = [f"drawn{number}" for number in range(20)]
    for name in names:
        yield drawn_settings(name)
    yield from drawn_boards(names, 60)
    names = [f"near{number}" for number in range(8)]
    for name in names:
        yield near_settings(name)
    yield from drawn_boards(names, 60)


def main():
    lines = list(calls())
    texts = {"stdin": lines, "stdout": answers(lines)}
    for name, found in texts.items():
        text, stored = "".join(line + "\n" for line in found), CRATE / name
        if sys.argv[1:] != ["check"]:
            stored.write_text(text)
        elif stored.read_text() != text:
            sys.exit(f"not so: {stored} isn't what is made here")
    print(f"{len(texts['stdout'])} answers", file=sys.stderr)


if __name__ == "__main__":
    main()
