"""What the gate says of this checkout: a file below out/, which isn't committed.

`.ci/run` writes it by tools/gate-record in three steps. Before the proofs begin it notes the sums of what is proved and of what a
release has beside it. Behind `rt ci` it notes that line and the sums of the programs that were built, and at its end its own last
line. Each step wants the sums of the first one: sources that were changed in its midst leave no record."""
import json
from dataclasses import asdict, dataclass, field, replace
from pathlib import Path

from . import tree
from .tree import NotSo

FILE = tree.TOP / "out" / "gate.json"
NONE = "the gate left no record here: .ci/run leaves one where its proofs pass"


@dataclass(frozen=True)
class Record:
    """`proofs` is the last line of `rt ci` that passed, `gate` that of the whole gate; nothing where it hasn't come so far."""

    commit: str
    kit: str
    proved: str
    shipped: str
    programs: dict[str, str] = field(default_factory=dict)
    proofs: str = ""
    gate: str = ""

    @classmethod
    def begun(cls, kit: str) -> "Record":
        """The record of a gate that begins now."""
        return cls(tree.Commit.of_checkout().name, kit, tree.sum_of(tree.PROVED), tree.sum_of(tree.SHIPPED))

    @classmethod
    def read(cls, file: Path = FILE) -> "Record":
        try:
            return cls(**json.loads(file.read_text(encoding="utf-8")))
        except FileNotFoundError:
            raise NotSo(NONE) from None
        except (ValueError, TypeError):
            raise NotSo(f"{file} is no record of the gate") from None

    def write(self, file: Path = FILE) -> None:
        file.parent.mkdir(exist_ok=True)
        draft = file.with_suffix(".draft")
        draft.write_text(json.dumps(asdict(self), indent=1) + "\n", encoding="utf-8")
        draft.replace(file)

    def judge_sources(self) -> None:
        """Refuses other sources than those that it is of."""
        if self.proved != tree.sum_of(tree.PROVED):
            raise NotSo("crates/, crates.txt or HANDLES aren't those that the gate proved")
        if self.shipped != tree.sum_of(tree.SHIPPED):
            raise NotSo("what a release has beside the programs isn't what the gate tried")

    def judge_programs(self) -> None:
        """Refuses other programs than those that the gate built."""
        for name in tree.PROGRAMS:
            path = tree.built(name)
            if not path.is_file():
                raise NotSo(f"there is no {path.relative_to(tree.TOP)}, which the gate builds")
            if self.programs.get(name) != tree.sum_of_file(path):
                raise NotSo(f"{path.relative_to(tree.TOP)} isn't the program that the gate built")

    def with_proofs(self, line: str) -> "Record":
        """Behind the proofs and tests, which passed."""
        self.judge_sources()
        programs = {name: tree.sum_of_file(tree.built(name)) for name in tree.PROGRAMS if tree.built(name).is_file()}
        return replace(self, proofs=line, programs=programs)

    def with_gate(self, line: str) -> "Record":
        """At the gate's end, where all passed."""
        self.judge_sources()
        self.judge_programs()
        return replace(self, gate=line)
