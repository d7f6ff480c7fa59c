"""Writes the stored run of test_rollout, crates/test_rollout/stdin and stdout; with the word `check` it compares them instead.

The lines are written here, the worked cases by hand and the rest drawn with a fixed seed. What they answer is found by the
table of steps as it is written here, over a plain list of rows and the board of reference/, which goes through all
needs and generations; the program itself is never asked. A sealed value is kept as its provider and its data: of its bytes
only their number is printed. The lines are those at the heads of crates/test_rollout/src/reading.rt and asking.rt.
"""

import hashlib
import hmac
import random
import sys
from pathlib import Path

sys.dont_write_bytecode = True

from judgements import GCM1, IDENTITY, KEY1, KEY2, OTHER1, Form, number_of, settings
from reference import configuration, values, words
from reference.board import Board, who_text

CRATE = Path(__file__).resolve().parent.parent.parent / "crates" / "test_rollout"
MAGICS = {b"": 2, b"KRSTORE2": 2, b"KRSTORE1": 1}
MOST_ROOM, MOST_REPLICAS, MOST_SEATS = 4_000_000, 16, 64


# ---- values


class Sealed:
    """What a provider made of data at a path."""

    def __init__(self, who, path, plain):
        self.who, self.path, self.plain = who, path, plain

    def size(self):
        kind, size = self.who[0], len(self.plain)
        if kind == "identity":
            return size
        body = 16 + size + 16 - size % 16 if kind == "aescbc" else 12 + size + 16
        return len(values.prefix(self.who)) + body

    def is_read_by(self, who):
        return who[:2] == self.who[:2]

    def data(self, who):
        if who != self.who:
            raise Form
        return self.plain


class Raw:
    """Bytes as a line gave them, which only identity's reader makes data of."""

    def __init__(self, stored):
        self.stored = stored

    def size(self):
        return len(self.stored)

    def is_read_by(self, who):
        if who[0] == "identity":
            return not self.stored.startswith(values.MARK)
        return self.stored.startswith(values.prefix(who))

    def data(self, who):
        if who[0] != "identity":
            raise Form
        return self.stored


def sealed(providers, path, plain):
    if providers[0][0] == "identity" and plain.startswith(values.MARK):
        raise Form
    return Sealed(providers[0], path, plain)


def reader(providers, value):
    return next((who for who in providers if value.is_read_by(who)), None)


def check_of(who):
    if len(who) < 3:
        return 0
    return int.from_bytes(hmac.new(who[2], who[1].encode(), hashlib.sha256).digest()[:8], "big")


# ---- the store


class Row:
    """A put, or a delete where it has no value."""

    def __init__(self, revision, path, resource=None, check=None, value=None):
        self.revision, self.path, self.resource, self.check, self.value = revision, path, resource, check, value

    def size(self):
        """A kind, a revision and a path; for a put a resource, a check and a value: each length in 2 or 4 bytes."""
        size = 1 + 8 + 2 + len(self.path)
        if self.value is not None:
            size += 2 + len(self.resource) + (0 if self.check is None else 8) + 4 + self.value.size()
        return size

    def parts(self):
        if self.value is None:
            return f"{self.path} deleted"
        return f"{self.path} {self.resource} {self.value.size()} " + ("bare" if self.check is None else "checked")


class Failed(Exception):
    """The tape failed."""


class Full(Exception):
    """The file would have so many bytes."""


class Store:
    def __init__(self, content, limit, fails):
        if content not in MAGICS or len(content) > limit:
            raise Form
        self.format, self.length, self.limit = MAGICS[content], len(content), limit
        self.rows, self.fails, self.writes, self.faults, self.torn = [], fails, 0, 0, False

    def call(self):
        """One call of the tape that writes."""
        self.writes += 1
        if self.writes in self.fails:
            self.faults += 1
            raise Failed

    def append(self, path, resource=None, check=None, value=None):
        row = Row(len(self.rows) + 1, path, resource, check if self.format == 2 else None, value)
        needed = (self.length or 8) + row.size()
        if needed > self.limit:
            raise Full(needed)
        if self.torn:
            self.call()
            self.torn = False
        try:
            self.call()
        except Failed:
            self.torn = True
            raise
        self.rows.append(row)
        self.length = needed
        return row

    def last(self, path):
        return next((row for row in reversed(self.rows) if row.path == path), None)

    def live(self, path):
        row = self.last(path)
        return row if row is not None and row.value is not None else None

    def after(self, path):
        paths = sorted({row.path for row in self.rows if row.path > path})
        return next((row for row in map(self.live, paths) if row is not None), None)

    def lines(self):
        for row in self.rows:
            yield f"row {row.revision} {row.parts()}"
        yield f"rows {len(self.rows)} {self.length} {self.faults} {'torn' if self.torn else 'whole'}"


# ---- the core


class Seat:
    def __init__(self, reloads):
        self.held, self.found, self.left = None, None, reloads


class Core:
    """A rollout: `step` answers an event of a seat by the table."""

    def __init__(self, store, replicas, reloads, room):
        self.store, self.board, self.room = store, Board(None), room
        self.current = [None] * len(replicas)
        self.seats = [Seat(number) for number in reloads]
        self.journal = []
        self.note(replicas[0])
        for replica, entries in enumerate(replicas):
            if entries is not None:
                verdict = self.board.verdict(replica, entries)
                if verdict != "pass":
                    raise Refusal(f"unfit {replica} {verdict}")
                self.take_up(replica, entries)

    def note(self, first):
        """What each live row needs; the least path without a provider, and then the least one with another check."""
        rows = [self.store.live(path) for path in sorted({row.path for row in self.store.rows})]
        rows = [row for row in rows if row is not None]
        found = [(row, reader(configuration.list_for(first, row.resource), row.value)) for row in rows]
        for row, who in found:
            if who is None:
                raise Refusal(f"stray {row.path}")
        for row, who in found:
            if row.check not in (None, check_of(who)):
                raise Refusal(f"other-secret {row.path}")
            self.board.needs[row.path] = row.resource, who

    def take_up(self, replica, entries):
        self.board.add(replica, entries)
        self.current[replica] = len(self.board.generations) - 1
        return self.current[replica]

    def held_list(self, seat, resource):
        return configuration.list_for(self.board.generations[seat.held].entries, resource)

    def is_replica(self, replica):
        return replica < len(self.current)

    def ask(self, number, key, *rest):
        """The seat, what it held, what it did, what it was given, how often the tape had failed; and what was found."""
        if number >= len(self.seats) or len(self.journal) == self.room:
            raise Form
        seat = self.seats[number]
        held = "-" if seat.held is None else str(seat.held)
        did, gave = getattr(self, key)(seat, *rest)
        line = f"{number} {held} {did} | {gave} | {self.store.faults}"
        self.journal.append(line)
        return f"{line} {seat.found.parts()}" if gave.startswith("found") else line

    def adopt(self, seat, replica):
        if not self.is_replica(replica) or seat.held is not None:
            raise Form
        seat.found, number = None, self.current[replica]
        if number is None:
            return f"adopt {replica}", f"gone {replica}"
        seat.held = number
        self.board.generations[number].holders += 1
        return f"adopt {replica}", f"adopted {number}"

    def look(self, seat, did, row):
        if seat.held is None:
            raise Form
        seat.found = row
        return did, "absent" if row is None else f"found {row.revision}"

    def fetch(self, seat, path):
        need_path(path)
        return self.look(seat, f"fetch {path}", self.store.live(path))

    def after(self, seat, path):
        if path:
            need_path(path)
        return self.look(seat, f"after {path or '-'}", self.store.after(path))

    def letgo(self, seat):
        if seat.held is None:
            raise Form
        self.board.generations[seat.held].holders -= 1
        seat.held = None
        return "letgo", "released"

    def write(self, path, providers=None, resource=None, plain=None):
        """A value by the writer of a list, or a delete."""
        try:
            if providers is None:
                row = self.store.append(path)
                self.board.needs.pop(path)
            else:
                row = self.store.append(path, resource, check_of(providers[0]), sealed(providers, path, plain))
                self.board.needs[path] = resource, providers[0]
            return f"written {row.revision}"
        except Failed:
            return "failed"
        except Full as full:
            return f"full {full.args[0]}"

    def put(self, seat, path, resource, plain):
        need_path(path)
        if seat.held is None or not words.is_resource(resource.encode()):
            raise Form
        gave = self.write(path, self.held_list(seat, resource), resource, plain)
        return f"put {path} {resource} {len(plain)}", gave

    def delete(self, seat, path):
        need_path(path)
        return f"delete {path}", "absent" if self.store.live(path) is None else self.write(path)

    def replace(self, seat):
        if seat.held is None or seat.found is None:
            raise Form
        row = seat.found
        providers = self.held_list(seat, row.resource)
        plain = row.value.data(reader(providers, row.value))
        did, last = f"replace {row.path} {row.revision}", self.store.last(row.path)
        if last is not row:
            return did, f"changed {last.revision}"
        return did, self.write(row.path, providers, row.resource, plain)

    def brought(self, seat, replica):
        if not self.is_replica(replica) or seat.left == 0:
            raise Form
        seat.left -= 1

    def judged(self, replica, entries, word):
        verdict = self.board.verdict(replica, entries)
        return f"{word} {self.take_up(replica, entries)}" if verdict == "pass" else f"refused {verdict}"

    def reload(self, seat, replica, entries, expected):
        self.brought(seat, replica)
        did, current = f"reload {replica} {'-' if expected is None else expected}", self.current[replica]
        if current is None:
            return did, f"gone {replica}"
        if expected not in (None, current):
            return did, f"moved {current}"
        return did, self.judged(replica, entries, "reloaded")

    def join(self, seat, replica, entries):
        self.brought(seat, replica)
        did, current = f"join {replica}", self.current[replica]
        return did, self.judged(replica, entries, "joined") if current is None else f"present {current}"

    def leave(self, seat, replica):
        if not self.is_replica(replica):
            raise Form
        did, current = f"leave {replica}", self.current[replica]
        if current is None:
            return did, f"gone {replica}"
        self.current[replica] = None
        self.board.leave(replica)
        return did, f"departed {current}"


class Refusal(Exception):
    """No core starts."""


def need_path(path):
    if not words.is_path(path.encode()):
        raise Form


# ---- the lines


def bytes_of(word):
    try:
        return b"" if word == "-" else bytes.fromhex(word)
    except ValueError:
        raise Form from None


def option_of(word):
    return None if word == "-" else number_of(word)


class Play:
    """The named configurations, and a store or a core over it."""

    def __init__(self):
        self.named, self.store, self.core, self.is_alone = {}, None, None, False

    def at(self, name):
        if name not in self.named:
            raise Form
        return self.named[name]

    def settings(self, name, text):
        self.named[name] = configuration.read(text.encode())
        return []

    def new_store(self, content, limit, fails):
        fails = [] if fails == "-" else [number_of(number) for number in fails.split(",")]
        self.store, self.core = Store(bytes_of(content), number_of(limit), fails), None
        return []

    def row(self, path, resource, check, stored):
        need_path(path)
        if self.store is None or not words.is_resource(resource.encode()):
            raise Form
        try:
            return [f"written {self.store.append(path, resource, number_of(check), Raw(bytes_of(stored))).revision}"]
        except Failed:
            return ["failed"]
        except Full as full:
            return [f"full {full.args[0]}"]

    def start(self, room, reloads, names, is_alone=False):
        room, reloads = number_of(room), [number_of(number) for number in reloads.split(",")]
        replicas = [None if name == "-" else self.at(name) for name in names.split(",")]
        if replicas[0] is None or len(replicas) > MOST_REPLICAS or len(reloads) > MOST_SEATS:
            raise Form
        if sum(reloads) > room or room > MOST_ROOM or self.store is None:
            raise Form
        try:
            self.core = Core(self.store, replicas, reloads, room)
        except Refusal as refusal:
            return [refusal.args[0]]
        self.store, self.is_alone = None, is_alone
        return ["started"]

    def solo(self, room, reloads, names):
        return self.start(room, reloads, names, True)

    def board(self, room, names):
        replicas = [None if name == "-" else self.at(name) for name in names.split(",")]
        if replicas[0] is None or len(replicas) > min(MOST_REPLICAS, number_of(room)) or self.store is None:
            raise Form
        try:
            return live_line(Core(self.store, replicas, [0], 1).board)
        except Refusal as refusal:
            return [refusal.args[0]]

    def running(self):
        if self.core is None:
            raise Form
        return self.core

    def table(self):
        if self.is_alone:
            raise Form
        return self.running()

    def once(self, seat, key, *rest):
        seat = number_of(seat)
        if key in ("fetch", "after", "delete", "letgo", "replace"):
            rest = ["" if word == "-" else word for word in rest]
        elif key == "put":
            rest = ["" if rest[0] == "-" else rest[0], rest[1], bytes_of(rest[2])]
        elif key == "reload":
            rest = [number_of(rest[0]), self.at(rest[1]), option_of(rest[2])]
        elif key == "join":
            rest = [number_of(rest[0]), self.at(rest[1])]
        elif key in ("adopt", "leave"):
            rest = [number_of(rest[0])]
        else:
            raise Form
        core = self.running()
        if not self.is_alone:
            return [core.ask(seat, key, *rest)]
        if seat != 0:
            raise Form
        core.ask(seat, key, *rest)
        return []

    def turns(self, times, seat, replica, first, second):
        for turn in range(number_of(times)):
            entries = self.at((first, second)[turn % 2])
            line = self.table().ask(number_of(seat), "reload", number_of(replica), entries, None)
        return [line, f"lines {len(self.core.journal)}"]

    def live(self):
        return live_line(self.table().board)

    def close(self):
        core = self.running()
        self.store, self.core = core.store, None
        return (core.journal if self.is_alone else []) + list(self.store.lines())


def live_line(board):
    return [" ".join(["live"] + [str(number) for number, _ in board.live()])]


def answers(lines):
    """What the program prints for the lines."""
    play, printed = Play(), []
    calls = {"store": play.new_store, "do": play.once}
    for line in lines:
        key, *rest = line.split(" ")
        if key == "#":
            continue
        try:
            if key not in ("settings", "store", "row", "start", "solo", "board", "do", "turns", "live", "close"):
                raise Form
            printed += calls.get(key, getattr(play, key, None))(*rest)
        except Form:
            printed.append("line")
    return printed


# ---- the cases

DATA = b"hello".hex()
FRESH = "store - 65536 -"


def keys():
    """Configurations of secrets: the first key alone, both, the second first, the second alone, and others."""
    yield settings("old", ("secrets", [KEY1, IDENTITY]))
    yield settings("both", ("secrets", [KEY1, KEY2, IDENTITY]))
    yield settings("new", ("secrets", [KEY2, KEY1, IDENTITY]))
    yield settings("last", ("secrets", [KEY2, IDENTITY]))
    yield settings("other", ("secrets", [OTHER1, IDENTITY]))
    yield settings("plain", ("secrets", [IDENTITY]))
    yield settings("gcm", ("*.*", [GCM1, IDENTITY]))


def refusals():
    yield "# what a held generation writes by, and then what is stored, can't be dropped"
    yield from (FRESH, "start 100 5,5 both", "do 0 adopt 0", "do 1 reload 0 last -", "live", f"do 0 put /s secrets {DATA}")
    yield from ("do 0 letgo", "do 1 reload 0 last -", "live", "close")
    yield "# nor can a held generation be left behind that doesn't read what is written now"
    yield from (FRESH, "start 100 5,5 old", "do 0 adopt 0", "do 1 reload 0 new -", "do 0 letgo", "do 1 reload 0 new -", "live")
    yield from ("do 1 reload 0 new 0", "do 1 reload 0 new 1", "do 1 reload 0 new -", "do 1 reload 0 new -", "live", "close")


def changes():
    yield "# a row that was written again isn't replaced, nor one that was deleted"
    yield from (FRESH, "start 100 0 old", "do 0 adopt 0", f"do 0 put /s secrets {DATA}", "close")
    yield from ("start 100 1,1 new", "do 0 adopt 0", "do 0 after -", "do 1 adopt 0", f"do 1 put /s secrets {DATA}00")
    yield from ("do 0 replace", "do 0 fetch /s", "do 0 replace", "do 0 replace", "do 0 after /s", "do 0 replace")
    yield from ("do 0 fetch /s", "do 1 delete /s", "do 0 replace", "do 0 fetch /s", "do 1 delete /s", "live", "close")


def membership():
    yield "# a replica leaves, and another joins"
    yield from (FRESH, "start 100 5,5 both,-", "do 0 adopt 0", "do 1 leave 0", "live", "do 1 join 1 last", "do 0 letgo", "live")
    yield from ("do 1 join 1 last", "do 1 join 1 last", "do 0 adopt 0", "do 1 reload 0 old -", "do 1 leave 0", "do 0 adopt 1")
    yield from ("do 1 reload 1 new 1", "live", "do 0 letgo", "live", "do 1 join 0 new", "do 1 leave 1", "live", "close")


def starts():
    yield "# another secret of the same name, which the second format alone tells"
    for content in ("-", b"KRSTORE1".hex(), b"KRSTORE2".hex()):
        yield from (f"store {content} 65536 -", "start 100 0 old", "do 0 adopt 0", f"do 0 put /t secrets {DATA}")
        yield from (f"do 0 put /s secrets {DATA}", "close", "start 100 0 other", "close", "start 100 0 old", "close")
    yield "# strays, of which the least is told, also before another secret"
    yield from (FRESH, f"row /b secrets 0 {DATA}", "start 100 0 plain", "close", f"row /a secrets 7 {DATA}", "start 100 0 plain")
    stray = b"k8s:enc:aescbc:v1:key9:x".hex()
    yield from (f"row /d secrets 0 {stray}", f"row /c secrets 0 {stray}", "start 100 0 plain", "start 100 0 old")
    yield from (f"row /c secrets 0 {DATA}", "start 100 0 old", f"row /d secrets 0 {DATA}", "start 100 0 old")
    yield "# replicas that don't fit with those before them"
    yield from (FRESH, "start 100 0 old,new", "start 100 0 old,-,last", "start 100 0 new,-,both", "live", "close")
    yield from (f"row /s secrets {check_of(('aescbc', 'key1', bytes([1]) * 16))} {b'k8s:enc:aescbc:v1:key1:x'.hex()}",)
    yield from ("start 100 0 both,last", "start 100 0 new,old", "start 100 0 both,new", "live", "do 0 adopt 1", "do 0 fetch /s")
    yield from ("do 0 replace", "close")


def boards():
    yield "# the board of a store and of settings, without a core"
    yield from (FRESH, "board 1 old", "board 3 new,-,both", "board 2 new,-,both", "board 0 old", "board 1 -", "board 2 -,old")
    yield from ("board x old", "board 1 nobody", "board 2 old,new", "board 2 both,new", "board 17 " + ",".join(["old"] * 17))
    yield from ("start 100 0 old", "board 1 old", "do 0 adopt 0", f"do 0 put /s secrets {DATA}", "close", "board 1 new")
    yield from ("board 1 plain", "board 1 other", "board 2 both,last", "board 9 both,new,old")


def only_callers():
    yield "# an only caller: it adopts, puts, finds and lets go; then the journal is full"
    yield from (FRESH, "solo 5 0 old", "do 0 adopt 0", f"do 0 put /s secrets {DATA}", "do 0 fetch /s", "do 1 letgo", "live")
    yield from ("do 0 letgo", "do 0 fetch /s", "turns 1 0 0 old old", "do 0 leave 0", "do 0 leave 0", "close")
    yield "# what it found it replaces, by what it holds then; a refusal gives the store back"
    yield from ("solo 9 1 plain", "solo 9 2,1 new,old", "solo 9 2,1 new", "do 0 replace", "do 0 adopt 0", "do 0 after -", "do 0 replace")
    yield from ("do 0 replace", "do 0 reload 0 last -", "do 0 reload 0 both 0", "do 0 reload 0 new -", "do 0 adopt 0", "do 0 letgo")
    yield from ("do 0 adopt 1", "do 0 join 1 old", "do 0 delete /s", "solo 9 1 new", "close", "close")


def faults():
    yield "# a full store"
    yield from ("store - 120 -", "start 100 0 gcm", "do 0 adopt 0", f"do 0 put /s secrets {DATA}", f"do 0 put /t secrets {DATA}")
    yield from ("do 0 after -", "do 0 replace", "do 0 delete /s", f"do 0 put /t secrets {DATA}", "do 0 delete /s", "live", "close")
    yield from ("store - 40 -", f"row /s secrets 0 {DATA}", f"row /t secrets 0 {DATA}", "start 100 0 plain", "do 0 delete /s", "close")
    yield "# a tape that fails, and then a write"
    yield from ("store - 65536 1,3,6,7", "start 100 5 both", "do 0 adopt 0", f"do 0 put /s secrets {DATA}")
    yield from ("do 0 reload 0 last -", "do 0 letgo", "do 0 reload 0 last -", "do 0 adopt 0", f"do 0 put /s secrets {DATA}")
    yield from (f"do 0 put /s secrets {DATA}", "do 0 delete /s", "do 0 fetch /s", "do 0 replace", "do 0 delete /s", "close")
    yield from ("start 100 5 last", "do 0 adopt 0", "do 0 delete /s", "do 0 delete /s", "do 0 fetch /s", "close")


def turns():
    yield "# a thousand reloads while another seat holds the first generation, which can't be dropped; then it can, as line 1,004"
    yield from (FRESH, "start 1004 0,1002 both", "do 0 adopt 0", "turns 1000 1 0 new both", "live", "do 1 reload 0 last -")
    yield from ("do 0 letgo", "turns 1 1 0 last last", "live", "do 0 leave 0", "close")
    yield "# the same where the seat that holds it finds it as it was"
    yield from (FRESH, "start 1004 1000,0 both", "do 1 adopt 0", "do 0 fetch /s", "turns 1000 0 0 new both", "live")
    yield from ("do 0 reload 0 new -", "do 1 fetch /s", "do 1 letgo", "do 0 adopt 0", "live", "do 0 letgo", "close")


def lines_out_of_form():
    yield "# what isn't of the form, or isn't allowed"
    yield from ("live", "close", "do 0 letgo", "start 10 1 old", "store zz 9 -", FRESH, "start 10 1 nobody", "start 10 1 -,old")
    yield from ("start 10 11 old", "start 10 6,6 old", f"start 4000001 1 old", "start 10 x old", "row - secrets 0 00", "jump")
    yield from ("start 10 5,5 old", "start 10 5,5 old", "row /a secrets 0 00", "do 0 fetch /s", "do 0 letgo", "do 2 adopt 0")
    yield from ("do 0 adopt 1", "do 0 adopt 0", "do 0 adopt 0", "do 0 replace", "do 0 fetch -", "do 0 put /s Secrets 00", "do 0 hold 0")
    yield from ("do 0 put - secrets 00", "do 1 put /s secrets 00", "do 0 join 1 old", "do 1 leave 1", "do 0 delete -", "do x letgo")
    yield from ("do 0 reload 0 old x", "do 0 letgo", "close")
    yield "# the journal is full"
    yield from ("start 3 0 old", "do 0 adopt 0", "do 0 letgo", "do 0 leave 0", "do 0 leave 0", "do 0 adopt 0", "close")
    yield "# no more configurations may come, also where they weren't judged"
    yield from ("start 9 2,1 old", "do 0 reload 0 both 7", "do 0 join 0 old", "do 0 reload 0 old -", "do 1 reload 0 old -", "close")


PATHS, RESOURCES = ("/a", "/a/x", "/a0", "/b"), ("secrets", "secrets", "pods", "jobs.batch")
SOURCE = random.Random(20261127)


def drawn_event(names, seats, replicas):
    key = SOURCE.choice("adopt adopt letgo fetch after put put delete replace replace reload reload join leave".split())
    path, replica, name = SOURCE.choice(PATHS), SOURCE.randrange(replicas), SOURCE.choice(names)
    rest = {
        "adopt": f" {replica}",
        "leave": f" {replica}",
        "fetch": f" {path}",
        "after": f" {SOURCE.choice(PATHS + ('-', '-'))}",
        "delete": f" {path}",
        "put": f" {path} {SOURCE.choice(RESOURCES)} {SOURCE.randbytes(SOURCE.randint(1, 40)).hex()}",
        "reload": f" {replica} {name} {SOURCE.choice(('-', '-', '0', '1', '2'))}",
        "join": f" {replica} {name}",
    }
    return f"do {SOURCE.randrange(seats)} {key}{rest.get(key, '')}"


def drawn_cores(names, cores):
    for _ in range(cores):
        yield f"store {SOURCE.choice(('-', b'KRSTORE1'.hex()))} {SOURCE.choice(('65536', '65536', '600'))} {SOURCE.choice(('-', '-', '2,5', '3,4,9'))}"
        for _ in range(2):
            replicas = [SOURCE.choice(names)] + [SOURCE.choice((*names, "-")) for _ in range(SOURCE.randint(0, 2))]
            yield f"start 60 9,9,9 {','.join(replicas)}"
            for _ in range(25):
                yield drawn_event(names, 3, len(replicas))
            yield "live"
            yield "close"


def all_lines():
    yield from keys()
    for cases in (refusals, changes, membership, starts, boards, only_callers, faults, turns, lines_out_of_form):
        yield from cases()
    yield "# drawn cores"
    yield from drawn_cores(("old", "both", "new", "last", "plain"), 20)
    yield settings("open", ("*.*", [IDENTITY, GCM1, KEY1]))
    yield settings("shut", ("*.*", [GCM1, KEY1, IDENTITY]))
    yield from drawn_cores(("open", "shut", "shut"), 15)


def main():
    lines = list(all_lines())
    texts = {"stdin": lines, "stdout": answers(lines)}
    for name, found in texts.items():
        text, stored = "".join(line + "\n" for line in found), CRATE / name
        if sys.argv[1:] != ["check"]:
            stored.write_text(text)
        elif stored.read_text() != text:
            sys.exit(f"not so: {stored} isn't what is made here")
    print(f"{len(texts['stdout'])} answers", file=sys.stderr)


if __name__ == "__main__":
    main()
