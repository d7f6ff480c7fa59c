"""The stored calls of test_run, as calls of a built program over real files. Those that have plugins, in which something fails, or that
name what no file system has stay with test_run, whose world is in memory. What each leaves was written by the second
implementation."""
import hashlib
import re
import subprocess
import sys
import tempfile
from concurrent.futures import ThreadPoolExecutor
from dataclasses import dataclass
from pathlib import Path

from support import PATIENCE, TOP

sys.path[:0] = [str(TOP / "tools" / "stored"), str(TOP)]
from run_answers import MOST_PRINTED, ROOM, Case, cases_of  # noqa: E402 (their folder must be on the path first)

STORED = TOP / "crates" / "test_run"
NO_FAULTS = "0:0:0:0"
# A name of a file has fewer bytes on Linux.
LONGEST_NAME = 256
AT_ONCE = 4


@dataclass(frozen=True)
class StoredCall:
    """A call, and the line of what it is to leave, by the names of that line's parts."""

    case: Case
    wanted: dict[str, str]

    def draws(self) -> bool:
        """Whether it takes random bytes: then its output and its store are others each time, and of the same length."""
        return any(self.wanted[f"dice:{seat}"] != f"{len(content)}:0" for seat, content in self.case.dice)


@dataclass(frozen=True)
class Left:
    """What a call of the program left: its status and its bytes."""

    status: int
    output: bytes
    errors: bytes
    tapes: dict[str, bytes | None]


def can_be_made(case: Case, wanted: dict[str, str]) -> bool:
    """Whether real files and streams can be what this call's world is."""
    names = [name for name, _ in [*case.files, *case.tapes]] + case.absent
    plain = all(re.fullmatch(r"[A-Za-z0-9_][A-Za-z0-9_.-]*", name) for name in names) and len(set(names)) == len(names)
    whole = wanted["faults"] == NO_FAULTS and all(
        text.endswith(":0") for part, text in wanted.items() if part.startswith(("dice:", "tape:")) and ":" in text
    )
    words = all("\0" not in word and len(word) < LONGEST_NAME for word in case.words)
    # (the world in memory has files and stores apart, so a name may stand for both or be of the other kind)
    kinds = not {name for name, _ in case.files} & {behind for word, behind in zip(case.words, case.words[1:]) if word == "--store"}
    return plain and whole and words and kinds and not (case.plugins or case.fails or case.room != ROOM)


def stored_calls() -> list[StoredCall]:
    """Those of the stored calls that can be made so."""
    answers = [dict(part.rsplit("=", 1) for part in line.split(" ")[1:]) for line in (STORED / "stdout").read_text().splitlines()]
    cases = cases_of((STORED / "stdin").read_text())
    return [StoredCall(case, wanted) for case, wanted in zip(cases, answers, strict=True) if can_be_made(case, wanted)]


def shown(data: bytes) -> str:
    """Bytes as the stored answers have them."""
    return f"{len(data)}:{hashlib.sha256(data).hexdigest()}" if len(data) > MOST_PRINTED else data.hex() or "-"


def length_of(text: str) -> int:
    """How many bytes are shown so."""
    return int(text.partition(":")[0]) if ":" in text else 0 if text == "-" else len(text) // 2


def left_by(program: Path, case: Case) -> Left:
    """Calls the program in a folder that holds the call's files and stores."""
    with tempfile.TemporaryDirectory() as room:
        for name, content in [*case.files, *case.tapes]:
            (Path(room) / name).write_bytes(content)
        words = [word.encode() for word in case.words]
        done = subprocess.run([program, *words], cwd=room, input=case.input, capture_output=True, timeout=PATIENCE, check=False)
        stores = [Path(room) / name for name in [*(name for name, _ in case.tapes), *case.absent]]
        return Left(
            done.returncode, done.stdout, done.stderr, {store.name: store.read_bytes() if store.exists() else None for store in stores}
        )


def differing(call: StoredCall, left: Left) -> list[str]:
    """The parts in which what was left isn't what is stored."""
    wanted, found = call.wanted, {"status": str(left.status), "output": shown(left.output), "errors": shown(left.errors)}
    for name, content in left.tapes.items():
        stored = wanted.get(f"tape:{name}", "out")
        if stored != "out":
            wanted, found = {**wanted, f"tape:{name}": stored.rpartition(":")[0]}, {**found, f"tape:{name}": shown(content or b"")}
    lengths = call.draws()
    is_alike = (
        lambda part: length_of(wanted[part]) == length_of(found[part])
        if lengths and part not in ("status", "errors")
        else wanted[part] == found[part]
    )
    return [f"{part} is {found[part][:200]}, and not {wanted[part][:200]}" for part in found if not is_alike(part)]


def faults_of(program: Path) -> tuple[int, list[str]]:
    """How many calls were made of this program, and what isn't so."""
    calls = stored_calls()
    with ThreadPoolExecutor(AT_ONCE) as pool:
        found = pool.map(lambda call: [f"{call.case.name}: {text}" for text in differing(call, left_by(program, call.case))], calls)
        return len(calls), [line for lines in found for line in lines]
