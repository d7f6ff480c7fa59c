"""A room in which kmsrest-vet is called, in this process and as a program, and the others that are asked beside it."""
import contextlib
import hashlib
import io
import json
import random
import sys
from dataclasses import dataclass
from pathlib import Path

from support import TOP, Checks, Ended, call, kmsrest_program

sys.path[:0] = [str(TOP), str(TOP / "help"), str(TOP / "front"), str(TOP / "bridges"), str(TOP / "tools" / "cross" / "api-server")]
from vet.main import main  # noqa: E402 (its folder is known only now)

PROGRAM = TOP / "bridges" / "kmsrest-vet"


@dataclass(frozen=True)
class Told:
    """What a call printed, and its status."""

    status: int
    output: str
    errors: str = ""

    @property
    def whole(self) -> dict:
        """Its JSON."""
        return json.loads(self.output)

    def lines_of(self, code: str) -> list[int]:
        """The lines at which a code is told, 0 for the whole file."""
        return [it["line"] or 0 for it in self.whole["findings"] if it["code"] == code]


class Bench:
    """Counts, a folder, and what is drawn."""

    def __init__(self, checks: Checks, room: Path, seed: int):
        self.checks, self.room, self.draw = checks, room, random.Random(seed)
        self.expect = checks.expect

    def file(self, name: str, content: str | bytes, mode: int = 0o600) -> Path:
        path = self.room / name
        path.write_bytes(content if isinstance(content, bytes) else content.encode())
        path.chmod(mode)
        return path

    def within(self, *words: object) -> Told:
        """A call in this process."""
        out, errors = io.StringIO(), io.StringIO()
        hook = sys.excepthook
        with contextlib.redirect_stdout(out), contextlib.redirect_stderr(errors):
            try:
                status = main([str(word) for word in words])
            except SystemExit as end:
                status = end.code
        sys.excepthook = hook
        return Told(status, out.getvalue(), errors.getvalue())

    def vet(self, base: str | bytes, new: str | bytes, *words: object, mode: int = 0o600) -> Told:
        """A change, told in JSON unless the words say otherwise."""
        output = () if "--output" in words else ("--output", "json")
        return self.within(self.file("base.yaml", base), self.file("new.yaml", new, mode), *output, *words)

    def program(self, *words: object) -> Ended:
        """The built program."""
        return call([kmsrest_program(), *words], cwd=self.room)


def peer_program() -> Path | None:
    """Kubernetes' own code, where tools/cross/check-with-api-server has built and kept it."""
    import building

    of = hashlib.sha256((building.HERE / "main.go").read_bytes()).hexdigest()[:12]
    return next(iter(sorted(building.cache().glob(f"{building.PACKAGE}-*/peer-{of}"))), None)
