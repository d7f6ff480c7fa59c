"""What the front end says of plugins: who else may change one before it is run, and whom a call waits for."""
import os
import shutil
from pathlib import Path

from support import PATH, TOP, Checks, Ended, call, kmsrest_program

AROUND = TOP / "front" / "around"
KMS = TOP / "examples" / "kms.yaml"
MASK = TOP / "examples" / "plugins" / "mask.py"
NOBODY = 65534


def sealed_by(program: Path | str, **options) -> Ended:
    """An `encrypt` by the front end with this program as its plugin."""
    words = ["encrypt", "--config", KMS, "--resource", "secrets", "--path", PATH, f"--plugin=p={program}"]
    return call([AROUND, kmsrest_program(), *words], b"hello", **options)


def copied(folder: Path, mode: int = 0o700) -> Path:
    """A plugin in a folder of this mode."""
    folder.mkdir(parents=True, exist_ok=True)
    program = folder / "mask.py"
    shutil.copy(MASK, program)
    program.chmod(0o700)
    folder.chmod(mode)
    return program


def others_plugin(checks: Checks, room: Path) -> None:
    """A program that others may write, own or replace is told before it is started; one's own isn't, nor one of the system."""
    mine = copied(room / "mine")
    done = sealed_by(mine)
    checks.expect("a plugin of one's own: sealed, and nothing is said", (0, ""), (done.status, done.errors))
    others = {"a folder that all write": copied(room / "open", 0o777), "a folder that a group writes": copied(room / "group", 0o770)}
    others["a folder below one"] = copied(room / "wide" / "below")
    (room / "wide").chmod(0o777)
    others["a program that all write"] = copied(room / "program")
    others["a program that all write"].chmod(0o722)
    others["a link to one"] = room / "mine" / "link"
    others["a link to one"].symlink_to(others["a program that all write"])
    if os.geteuid() == 0:
        others["another's folder in a sticky one"] = copied(room / "sticky" / "theirs")
        (room / "sticky").chmod(0o1777)
        os.chown(room / "sticky" / "theirs", NOBODY, NOBODY)
        others["another's program"] = copied(room / "owned")
        os.chown(others["another's program"], NOBODY, NOBODY)
    for what, program in others.items():
        done = sealed_by(program)
        lines = done.errors.splitlines()
        is_told = len(lines) == 1 and lines[0].startswith("remark: --plugin p: ") and str(program) in lines[0]
        checks.expect(f"{what}: told, and sealed all the same", (0, True), (done.status, is_told))
    copied(room / "rest" / "own")
    (room / "rest").chmod(0o1777)
    done = sealed_by(room / "rest" / "own" / "mask.py")
    checks.expect("one's own folder in a sticky one: nothing is said", (0, ""), (done.status, done.errors))
    environment = {**os.environ, "PATH": f"{room / 'open'}:{os.environ['PATH']}"}
    done = sealed_by("mask.py", env=environment)
    checks.expect("one that PATH leads to: told", True, "remark: --plugin p: " in done.errors)
