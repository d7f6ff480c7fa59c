"""Writes the stored run of test_watch, crates/test_watch/stdin and stdout; with the word `check` it compares them instead.

The calls are written here, some by hand and the rest drawn with a fixed seed. What they answer is found by a dict of items and a
list of all changes, of which none is dropped; the program itself is never asked. The lines are those at the head of
crates/test_watch/src/acting.rt.
"""

import random
import re
import sys
from pathlib import Path

sys.dont_write_bytecode = True

CRATE = Path(__file__).resolve().parent.parent.parent / "crates" / "test_watch"


# ---- the answers


class Form(Exception):
    """A line isn't of the form."""


def number(text, bits):
    if not re.fullmatch(r"\+?[0-9]+", text, re.A) or int(text) >= 2**bits:
        raise Form
    return int(text)


def parted(text, count):
    """The words of a text, of which the last may have spaces."""
    words = text.split(" ", count - 1)
    if len(words) < count:
        raise Form
    return words


def data_of(text):
    text = "" if text == "-" else text
    if not re.fullmatch(r"([0-9a-fA-F]{2})*", text, re.A):
        raise Form
    return bytes.fromhex(text)


class Watch:
    """All changes since an opening, and what lives: of each path its revision, resource and data."""

    def __init__(self, keep, opening):
        if keep == 0:
            raise Form
        self.keep, self.opening, self.items, self.changes = keep, opening, {}, []

    def newest(self):
        return self.opening + len(self.changes)

    def write(self, kind, path, item):
        if self.newest() == 2**64 - 1:
            raise Form
        self.changes.append((self.newest() + 1, kind, path))
        revision = self.newest()
        if kind == "put":
            self.items[path] = (revision, *item)
        elif kind == "delete":
            self.items.pop(path, None)
        elif path in self.items:
            self.items[path] = (revision, *self.items[path][1:])

    def page(self, resource, after, limit):
        if limit == 0:
            raise Form
        found = [(path, *item) for path, item in sorted(self.items.items()) if item[1] == resource and path > after]
        shown, more = found[:limit], found[limit:]
        yield f"page {len(shown)} {shown[-1][0] or '-' if more else '-'}"
        for path, revision, own, data in shown:
            yield f"{revision} {path or '-'} {own or '-'} {'?' if data is None else data.hex() or '-'}"

    def since(self, revision):
        dropped = self.changes[: -self.keep]
        oldest = dropped[-1][0] if dropped else self.opening
        if revision < oldest:
            return [f"gone {oldest}"]
        if revision > self.newest():
            return [f"ahead {self.newest()}"]
        told = [change for change in self.changes if change[0] > revision]
        return [f"changes {len(told)}"] + [f"{own} {kind} {path or '-'}" for own, kind, path in told]


class Play:
    def __init__(self):
        self.watch = None

    def call(self, times, key, rest):
        """Makes a call as often, of which one that asks answers at least once."""
        if key == "put":
            path, resource, data = parted(rest, 3)
            item = resource, data_of(data)
            for _ in range(times):
                self.watch.write("put", path, item)
        elif key in ("delete", "replace"):
            for _ in range(times):
                self.watch.write(key, rest, None)
        elif key == "list":
            resource, after, limit = parted(rest, 3)
            return list(self.watch.page(resource, "" if after == "-" else after, number(limit, 32)))
        elif key == "since":
            return self.watch.since(number(rest, 64))
        else:
            raise Form
        return []

    def line(self, text):
        """What is printed for a line."""
        key, _, rest = text.partition(" ")
        if key == "#":
            return []
        if key == "watch":
            keep, revision = parted(rest, 2)
            self.watch = Watch(number(keep, 32), number(revision, 64))
            return []
        if self.watch is None:
            raise Form
        if key == "seed":
            path, resource, revision, data = parted(rest, 4)
            self.watch.items[path] = (number(revision, 64), resource, None if data == "?" else data_of(data))
            return []
        if key == "again":
            times, rest = parted(rest, 2)
            key, _, rest = rest.partition(" ")
            return self.call(number(times, 32), key, rest)
        return self.call(1, key, rest)


def answers(lines):
    play, told = Play(), []
    for text in lines:
        try:
            told += play.line(text)
        except Form:
            told.append("line")
    return told


# ---- the calls


def worked():
    """A watch that keeps one change, and one behind a live row."""
    yield from ("watch 1 0", "put /a secrets 6869", "put /b secrets 6869", "since 0", "since 1", "since 2", "since 3")
    yield from ("list secrets - 1", "list secrets /a 1", "list secrets /b 1", "list secrets - 2", "list pods - 1")
    yield from ("watch 1 1", "seed /a secrets 1 6869", "list secrets - 1", "since 0", "since 1", "since 2")


def lines_out_of_form():
    yield from ("watch 0 1", "watch 1", "watch", "watch -1 0", "watch 1 18446744073709551616", "watch 4294967296 0", "list secrets - 1")
    yield from ("watch 2 18446744073709551614", "since 18446744073709551614", "put /a s -", "put /a s -", "delete /a", "replace /a", "again 2 other /a", "other /a", "since 18446744073709551614", "list s - 9")
    yield from ("seed /a s 1", "seed /a s x 6869", "seed /a s 1 686", "put /a s", "put /a s zz", "list s -", "list s - 0", "list s - x", "since", "since -1", "seal /a", "")
    yield from ("again", "again 2", "again x since 1", "again 2 seed /a s 1 -", "again 2 again 2 since 1", "again 2 watch 1 0", "again 0 put /c s zz")
    yield from ("again 0 put /c s 61", "again 0 list s - 1", "again 0 since 18446744073709551615", "list s - 9")


def kinds():
    """What each kind of line does where there is an item, and where there is none."""
    for before in ([], ["put /a s 61"], ["seed /a s 3 61"], ["seed /a s 3 ?"]):
        for line in ("put /a s 62", "put /a t 62", "delete /a", "replace /a"):
            yield from ("watch 5 3", *before, "put /b s -", line, "list s - 5", "list t - 5", "since 3", "since 4", "since 5")


def pages():
    """Pages of 1, 2 and 500 that are taken while lines are handed in between."""
    for limit in (1, 2, 500):
        yield "watch 3 0"
        yield from (f"put /{name} s {name.encode().hex()}" for name in ("d", "b", "a", "c", "~", "!", "a/b"))
        yield f"list s - {limit}"
        yield from ("delete /a", "put /a! s 61", f"list s /a {limit}", "replace /c", "delete /b", f"list s /b {limit}", "put /0 s -", f"list s /d {limit}", f"list s /zz {limit}", f"list s /~ {limit}")
    yield "watch 7 0"
    yield from (f"put /{at * 377 % 1003:04} s -" for at in range(1003))
    yield from ("list s - 500", "list s /0499 500", "list s /0500 500", "list s /0502 500", "list s /0503 500", "list s - 1003", "list s - 1002")


def kept():
    """As many changes as are kept, and one more and less."""
    for keep in (1, 2, 3, 4294967295):
        for count in range(5):
            yield from (f"watch {keep} 10", f"again {count} put /a s -", *(f"since {revision}" for revision in range(9, 10 + count + 2)))


PATHS = ("/a", "/a/b", "/b", "/c", "/c!", "/d")


def drawn(count):
    draw = random.Random(53)
    for _ in range(count):
        opening = draw.choice((0, 0, 5))
        yield f"watch {draw.choice((1, 2, 3, 8))} {opening}"
        for path in draw.sample(PATHS, draw.randint(0, 3)) if opening else ():
            yield f"seed {path} {draw.choice('st')} {draw.randint(1, opening)} {draw.choice(('-', '?', '6869'))}"
        for _ in range(draw.randint(0, 25)):
            kind, path = draw.choice(("put", "put", "put", "delete", "replace", "list", "list", "since")), draw.choice(PATHS)
            if kind == "put":
                yield f"put {path} {draw.choice('st')} {draw.randbytes(draw.randint(0, 3)).hex() or '-'}"
            elif kind == "list":
                yield f"list {draw.choice('st')} {draw.choice((*PATHS, '-', '-'))} {draw.choice((1, 2, 500))}"
            elif kind == "since":
                yield f"since {opening + draw.randint(-1, 12) if opening else draw.randint(0, 12)}"
            else:
                yield f"{kind} {path}"


def calls():
    yield "since 0"
    for title, lines in {
        "a watch that keeps one change, and one behind a live row": worked(),
        "lines out of form": lines_out_of_form(),
        "what each line does": kinds(),
        "pages between lines": pages(),
        "changes that are kept": kept(),
        "drawn watches": drawn(120),
    }.items():
        yield f"# {title}"
        yield from lines


def main():
    lines = list(calls())
    texts = {"stdin": lines, "stdout": answers(lines)}
    for name, found in texts.items():
        text, stored = "".join(line + "\n" for line in found), CRATE / name
        if sys.argv[1:] != ["check"]:
            stored.write_text(text)
        elif stored.read_text() != text:
            sys.exit(f"not so: {stored} isn't what is made here")
    print(f"{len(texts['stdout'])} answers", file=sys.stderr)


if __name__ == "__main__":
    main()
