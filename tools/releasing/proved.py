"""PROVED: what a release says of how it came to be."""
import textwrap
from pathlib import Path

from . import tree
from .record import Record
from .tree import Commit

GATE_OPEN = "not at its end yet when this was made: the gate tries a release before it ends, and this is the one that it tries"
UNPROVED = "NOT PROVED. These programs were given by hand for a trial, and nobody says what they were made of."
MEANING = (
    "The gate, .ci/run, proves each crate, has its tests run and its wrong bodies refused, and asks other implementations. "
    "`sources` is the sum of crates/, crates.txt and HANDLES, by their names and contents. "
    "`built` is the sum of a program as the gate built it; "
    "the one here is the same without its symbols. In a checkout of this commit .ci/run, with that kit on the path, "
    "proves it again, and docs/DEFINITIONS.md says there what is claimed. Of the bridges, the front end and the help nothing is proved."
)


def rows(told: dict[str, str]) -> str:
    return "".join(f"{name:<14} {text}\n" for name, text in told.items())


def wrapped(text: str) -> str:
    return textwrap.fill(text, 98, break_long_words=False, break_on_hyphens=False) + "\n"


def program_rows(programs: dict[str, Path]) -> dict[str, str]:
    return {f"built {name}": tree.sum_of_file(path) for name, path in programs.items()}


def of_gate(record: Record, commit: Commit, programs: dict[str, Path]) -> str:
    """The text of what the gate passed over."""
    changed = ", and changes that aren't committed" if commit.is_changed else ""
    told = {
        "commit": commit.name + changed,
        "sources": record.proved,
        "kit": record.kit,
        "proofs": record.proofs,
        "gate": record.gate or GATE_OPEN,
    }
    if record.commit != commit.name:
        told["gate of"] = f"{record.commit}, which has the same sources"
    return f"kmsrest {tree.version()} for linux-x86_64\n\n{rows(told)}\n{rows(program_rows(programs))}\n{wrapped(MEANING)}"


def of_trial(programs: dict[str, Path]) -> str:
    """The text of a trial."""
    return f"kmsrest {tree.version()} for linux-x86_64\n\n{wrapped(UNPROVED)}\n{rows(program_rows(programs))}"
