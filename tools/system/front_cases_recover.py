"""What `kmsrest recover` makes of stores as a loss of power leaves them: states of files that POSIX allows, drawn by a fixed seed."""
import os
import random
import sys
from dataclasses import dataclass
from pathlib import Path

from support import TOP, Checks, Ended, call, kmsrest_program

sys.path.insert(0, str(TOP))
from reference import store  # noqa: E402 (its folder must be on the path first)
from reference.store import Broken, Row  # noqa: E402

RECOVER = TOP / "front" / "recover"
STATES = int(os.environ.get("STATES", 40))
# Bytes that no line about a store has by chance.
RUN = 6
PAGE = 512


@dataclass(frozen=True)
class State:
    """A store's file behind a loss of power: the rows that were synced before, all rows that were written, and the bytes."""

    form: int
    synced: list[Row]
    rows: list[Row]
    data: bytes


def drawn_row(draw: random.Random, number: int, live: set[bytes]) -> Row:
    path = b"/registry/secrets/d/s%d" % draw.randrange(6)
    if path in live and draw.random() < 0.15:
        live.discard(path)
        return Row(path)
    live.add(path)
    data = draw.randbytes(draw.choice((0, 20, 300, 1500)))
    head = draw.choice((b"", b"k8s:enc:aescbc:v1:key1:", b"k8s:enc:aesgcm:v1:key2:"))
    return Row(path, b"secrets", head + data, draw.randbytes(8))


def drawn_state(draw: random.Random) -> State:
    """Rows that were synced, and a write of more behind them of which each page is there or zero, up to a length that the file had."""
    form, live = draw.choice((1, 2)), set()
    rows = [drawn_row(draw, number, live) for number in range(draw.randrange(2, 14))]
    synced = rows[: draw.randrange(len(rows))]
    known, whole = store.written(form, synced), store.written(form, rows)
    length = draw.choice((len(whole), draw.randrange(len(known), len(whole) + 1), len(whole) + draw.randrange(2000)))
    data, keeps = bytearray(known.ljust(length, b"\0")), draw.choice((0.1, 0.5, 0.9))
    for page in range(len(known) // PAGE, length // PAGE + 1):
        start, end = max(len(known), page * PAGE), min((page + 1) * PAGE, length)
        if start < end and draw.random() < keeps:
            data[start:end] = whole[start:end].ljust(end - start, b"\0")
    return State(form, synced, rows, bytes(data))


def breach_of(data: bytes) -> Broken | None:
    try:
        store.read(data)
    except Broken as breach:
        return breach
    return None


def shows(text: bytes, state: State) -> bool:
    """Whether some piece of a value's body stands in the text."""
    bodies = [row.value.rpartition(b":")[2] for row in state.rows if row.value]
    return any(body[at : at + RUN] in text for body in bodies for at in range(len(body) - RUN + 1))


def told_behind(output: bytes) -> dict[bytes, list[bytes]]:
    lines = [line.split() for line in output.splitlines() if line.startswith(b"behind ")]
    return {words[2]: words for words in lines if len(words) > 2}


def wrong_with(state: State, new: Path, done: Ended, breach: Broken) -> list[str]:
    """What isn't as it must be of a state that was recovered."""
    made, found = new.read_bytes(), []
    rows = store.read(made)[1]
    if not state.data.startswith(made) or len(made) != breach.place:
        found.append("it isn't the bytes before the breach")
    if len(rows) < len(state.synced):
        found.append("a row that was synced is gone")
    if new.stat().st_mode & 0o777 != 0o600:
        found.append("others may read it")
    if shows(done.output + done.errors.encode(), state):
        found.append("it shows a value")
    numbers = {words[0]: int(words[1]) for words in map(bytes.split, done.output.splitlines()) if len(words) == 2}
    if numbers.get(b"recovered") != len(rows) or f"breach {breach.code} {breach.place}\n".encode() not in done.output:
        found.append("its counts aren't so")
    # (a row that is told whole and has the revision of a written one is that one, by its path)
    for path, words in told_behind(done.output).items():
        revision = int(words[1])
        if words[-3] == b"whole," and not (len(rows) < revision <= len(state.rows) and state.rows[revision - 1].path == path):
            found.append(f"a row behind is told that wasn't written: {words}")
    return found


def recovered(checks: Checks, room: Path) -> None:
    """Drawn states: what is recovered is the rows before the breach, which the program lists, and no value is shown."""
    draw, wrong, codes = random.Random(1), [], set()
    broken = 0
    while broken < STATES:
        state = drawn_state(draw)
        breach = breach_of(state.data)
        if breach is None or breach.place < 8:
            continue
        broken += 1
        codes.add(breach.code)
        name, new = room / "store", room / f"new{broken}"
        name.write_bytes(state.data)
        done = call([RECOVER, name, new])
        if done.status != 0:
            wrong.append((broken, done))
            continue
        wrong += [(broken, what) for what in wrong_with(state, new, done, breach)]
        listed = call([kmsrest_program(), "list", "--store", new])
        if (listed.status, listed.output) != (0, store.listing(store.read(new.read_bytes())[1])) or name.read_bytes() != state.data:
            wrong.append((broken, "the program reads it otherwise, or the old store was changed"))
        new.unlink()
    checks.expect(f"{STATES} states behind a loss of power are recovered", [], wrong[:3])
    checks.expect("text 42 and 43 are among them", set(), {42, 43} - codes)


def recover_by_hand(checks: Checks, room: Path) -> None:
    """One state whose rows behind are known, and what is refused."""
    rows = [Row(b"/a", b"secrets", b"k8s:enc:aescbc:v1:key1:" + bytes(32), bytes(8)), Row(b"/b", b"secrets", b"k8s\0plain", bytes(8)),
            Row(b"/a", b"secrets", b"k8s:enc:aesgcm:v1:key2:" + bytes(40), bytes(8)), Row(b"/b"), Row(b"/c", b"secrets", b"k8s\0other", bytes(8))]
    start, whole = store.written(2, rows[:1]), store.written(2, rows)
    (room / "store").write_bytes(start + bytes(30) + whole[len(store.written(2, rows[:2])) : -3])
    done = call([RECOVER, room / "store", room / "new"])
    wanted = f"breach 43 {len(start)}\nbehind 3 /a secrets aesgcm:key2 whole, kept 1\nbehind 4 /b deleted whole, kept none\n" \
             "behind 5 /c secrets plain cut, kept none\nbehind 3\nunread 70\nrecovered 1\n"
    checks.expect("each path's last row behind the breach is told", (0, wanted, ""), (done.status, done.output.decode(), done.errors))
    (room / "order").write_bytes(start + store.row_bytes(2, 9, rows[1])[:-8])
    done = call([RECOVER, room / "order", room / "ordered"])
    wanted = f"breach 46 {len(start)}\nbehind 9 /b secrets ? cut, kept none\nbehind 1\nunread 35\nrecovered 1\n"
    checks.expect("so is one of another revision, and a value of which too little is there", (0, wanted), (done.status, done.output.decode()))
    done = call([kmsrest_program(), "list", "--store", room / "new"])
    checks.expect("the program lists what was recovered", (0, b"1 secrets /a aescbc:key1\n"), (done.status, done.output))
    done = call([kmsrest_program(), "verify", "--store", room / "new", "--config", TOP / "examples" / "rotation" / "new.yaml"])
    checks.expect("and verifies it, value by value", (1, b"refused 1"), (done.status, done.output.splitlines()[-1]))
    (room / "whole").write_bytes(whole)
    (room / "other").write_bytes(b"KRSTO")
    cases = [("a whole store", [room / "whole", room / "n"], 1), ("a name that is taken", [room / "store", room / "whole"], 4),
             ("a store without a row", [room / "other", room / "n"], 3), ("a device", ["/dev/zero", room / "n"], 4),
             ("one that isn't there", [room / "none", room / "n"], 4), ("one word", [room / "store"], 2), ("an option", ["--store", room / "n"], 2)]
    found = {what: call([RECOVER, *words]) for what, words, _status in cases}
    checks.expect("what isn't recovered ends by its cause", {what: status for what, _words, status in cases},
                  {what: done.status for what, done in found.items()})
    checks.expect("in one line each, and makes nothing", ([1] * len(cases), False),
                  ([len(done.errors.splitlines()) for done in found.values()], (room / "n").exists()))
