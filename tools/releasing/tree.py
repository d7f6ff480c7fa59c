"""The checkout that a release is made of: its files, its commit, and sums over them."""
import hashlib
import subprocess
from dataclasses import dataclass
from pathlib import Path

TOP = Path(__file__).resolve().parents[2]
# What the proofs are of: the crates, their list, and the system's doors that the program may use.
PROVED = ("crates", "crates.txt", "HANDLES")
# What stands in a release beside the programs, and what makes it.
SHIPPED = (
    *("kmsrest", "VERSION", "LICENSE", "front", "help", "reference", "bridges", "examples", "docs"),
    *("tools/release", "tools/releasing"),
)
PROGRAMS = ("kmsrest", "kmsplug")


class NotSo(Exception):
    """Why there is no release."""


def git(*words: str) -> str:
    """What git prints of this checkout."""
    done = subprocess.run(["git", "-C", str(TOP), *words], capture_output=True, text=True, check=False)
    if done.returncode != 0:
        raise NotSo(f"git {words[0]}: {done.stderr.strip() or done.returncode}")
    return done.stdout


def version() -> str:
    return (TOP / "VERSION").read_text(encoding="utf-8").strip()


def files_of(parts: tuple[str, ...]) -> list[str]:
    """The files below these places that git has or would take, as they stand in the checkout, sorted by their bytes."""
    named = set(git("ls-files", "-z", "--cached", "--others", "--exclude-standard", "--", *parts).split("\0"))
    return sorted((name for name in named if name and (TOP / name).is_file()), key=str.encode)


def sum_of_file(path: Path) -> str:
    return hashlib.sha256(path.read_bytes()).hexdigest()


def sum_of(parts: tuple[str, ...]) -> str:
    """One sum over the files below these places, by their names and their contents."""
    whole = hashlib.sha256()
    for name in files_of(parts):
        whole.update(f"{sum_of_file(TOP / name)}  {name}\n".encode())
    return whole.hexdigest()


def built(name: str) -> Path:
    """Where the gate builds a program."""
    return TOP / "crates" / name / "out" / name


@dataclass(frozen=True)
class Commit:
    """The commit that is checked out, its time, and whether what a release is made of has other bytes than it has there."""

    name: str
    seconds: int
    is_changed: bool

    @classmethod
    def of_checkout(cls) -> "Commit":
        name, seconds = git("log", "-1", "--format=%H %ct").split()
        return cls(name, int(seconds), bool(git("status", "--porcelain", "--", *PROVED, *SHIPPED).strip()))
