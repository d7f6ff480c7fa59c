"""Where kmsrest and the API server's own code answer otherwise, by classes. docs/FORMATS.md has the same names in its tables;
`judge_document` compares the two lists."""

import enum
import re
from dataclasses import dataclass

from asking import TOP, NotSo, expect

DOCUMENT = TOP / "docs" / "FORMATS.md"
HEADING = "## Where the API server answers otherwise"


class Side(enum.Enum):
    """Who accepts, or opens, what the other one refuses."""

    HERE = "accepted here, refused there"
    THERE = "refused here, accepted there"
    READING = "both accept, and read otherwise"


@dataclass(frozen=True)
class Class:
    """A class of differences, by the name that stands in the document."""

    name: str
    side: Side


ALL: dict[str, Class] = {}


def a_class(name: str, side: Side) -> Class:
    ALL[name] = Class(name, side)
    return ALL[name]


def document_rows(version: str) -> dict[str, str]:
    """The names of the document's rows that were tried against this version, each with the side that its table is of."""
    text = DOCUMENT.read_text(encoding="utf-8")
    expect(HEADING in text, f"{DOCUMENT} has no section {HEADING}")
    section = re.split(r"^## ", text.split(HEADING, 1)[1], flags=re.M)[0]
    found: dict[str, str] = {}
    side = ""
    for line in section.splitlines():
        if line.startswith("### "):
            side = line[4:].lower()
        cells = [cell.strip() for cell in re.split(r"(?<!\\)\|", line)[1:-1]]
        name = re.fullmatch(r"`([a-z0-9-]+)`", cells[0]) if cells else None
        if name and cells[-1].startswith(version):
            expect(name[1] not in found, f"the document has the class {name[1]} twice")
            found[name[1]] = side
    return found


def judge_document(version: str) -> int:
    """The document's tried rows are the classes of the check, each under its side."""
    wanted = {it.name: it.side.value for it in ALL.values()}
    found = document_rows(version)
    for name in sorted(wanted.keys() | found.keys()):
        if wanted.get(name) != found.get(name):
            raise NotSo(f"the class {name} is '{wanted.get(name)}' in the check and '{found.get(name)}' in {DOCUMENT.name}")
    return len(wanted)
