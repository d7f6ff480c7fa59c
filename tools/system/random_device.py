"""What stands at the place of the random device, where that is another: each draw from a plain file would have the same bytes."""
import os
import shutil
from pathlib import Path

from support import PATH, TOP, Checks, call, kmsrest_program

CONFIG = TOP / "examples" / "rotation" / "old.yaml"
DEVICE = "/dev/urandom"
# Runs the words with the first of them over the device, as a container or a changed root may have it.
OVER = f'mount --bind "$1" {DEVICE}; shift; exec "$@"'
SEAL = ["encrypt", "--config", CONFIG, "--resource", "secrets", "--path", PATH]
DATA = b"hello"


def _sealed_over(place: Path) -> tuple[int, bytes, str]:
    """How a call ended that seals a value while this stands over the device."""
    done = call(["unshare", "--mount", "sh", "-ec", OVER, "sh", place, kmsrest_program(), *SEAL], DATA)
    return done.status, done.output, done.errors


def _can_bind(folder: Path) -> bool:
    place = folder / "bound"
    place.touch()
    words = ["unshare", "--mount", "sh", "-ec", f'mount --bind "$1" {DEVICE}', "sh", place]
    return shutil.which("unshare") is not None and call(words).status == 0


def check(checks: Checks, folder: Path) -> None:
    """Seals a value with a plain file, a pipe and a folder at the device's place, and with another device."""
    if not _can_bind(folder):
        print(f"(nothing can be bound over {DEVICE} here, which takes root: what stands at its place isn't tried)")
        return
    plain, empty, pipe = folder / "plain", folder / "empty", folder / "pipe"
    plain.write_bytes(bytes(range(256)) * 16)
    empty.touch()
    os.mkfifo(pipe)
    for what, place in (("a plain file", plain), ("an empty file", empty), ("a pipe without a writer", pipe)):
        checks.expect(f"{what} in the place of the random device is a fault",
                      (4, b"", "kmsrest: fault files 1\n"), _sealed_over(place))
    status, output, errors = _sealed_over(Path("/dev/random"))
    checks.expect("another device there is taken", (0, True, ""), (status, output.startswith(b"k8s:enc:aescbc:"), errors))
