"""The image that examples/kubernetes/Containerfile describes: its instructions read, and done in a Debian of our own.

No registry is asked. What the file begins with is Debian's own image of the same suite; here stands a root of debootstrap that has
the packages which the file's first step installs, and the other steps are done in it."""
import os
import re
import shlex
import subprocess
import tarfile
from dataclasses import dataclass, field
from pathlib import Path

from debian_root import PACKAGES
from support import TOP, Checks, Ended

EXAMPLES = TOP / "examples" / "kubernetes"
FILE = EXAMPLES / "Containerfile"
BASE = "docker.io/library/debian:bookworm-slim"
KNOWN = ("FROM", "RUN", "ADD", "ENV", "USER", "CMD")
# What a pod's container is started in: the root read-only, volumes over it, and a process without capabilities.
START = """\
root=$1; shift
mount --bind "$root" "$root"
mount -t proc proc "$root/proc"
while [ "$1" != -- ]; do mount --bind "$2" "$root/$1"; [ "$3" = rw ] || mount -o "remount,bind,$3" "$root/$1"; shift 3; done
mount -o remount,bind,ro "$root"
shift
exec chroot "$root" setpriv --reuid="$USER_ID" --regid="$USER_ID" --clear-groups --inh-caps=-all --bounding-set=-all -- "$@"
"""


@dataclass(frozen=True)
class Instruction:
    """A line of the file: its word and what stands behind."""

    word: str
    rest: str


@dataclass(frozen=True)
class Mount:
    """A folder of this machine where a container sees it."""

    place: str
    folder: Path
    is_read_only: bool


@dataclass
class Image:
    """A root in which the instructions were done: what a container of it begins with."""

    root: Path
    environment: dict[str, str] = field(default_factory=dict)
    user: int = 0
    command: list[str] = field(default_factory=list)

    def run(self, words: list[str], mounts: tuple[Mount, ...] = (), user: int | None = None, **environment: str) -> Ended:
        """A container of the image, as a pod starts it."""
        bound = [part for it in mounts for part in (it.place, str(it.folder), "ro" if it.is_read_only else "rw")]
        for mount in mounts:
            (self.root / mount.place.lstrip("/")).mkdir(exist_ok=True)
        own = {"LC_ALL": "C", **self.environment, "HOME": "/", **environment, "USER_ID": str(self.user if user is None else user)}
        starter = ["unshare", "--mount", "--pid", "--fork", "--kill-child", "sh", "-ec", START, "sh", str(self.root), *bound, "--"]
        done = subprocess.run([*starter, *words], env=own, capture_output=True, stdin=subprocess.DEVNULL, timeout=600, check=False)
        return Ended(done.returncode, done.stdout, done.stderr.decode(errors="replace"), 0)


def instructions(text: str) -> list[Instruction]:
    """The file's instructions, with their continued lines."""
    lines = [line for line in text.splitlines() if line.strip() and not line.startswith("#")]
    whole = re.sub(r"\\\n\s*", "", "\n".join(lines))
    return [Instruction(*line.split(" ", 1)) for line in whole.splitlines()]


def tag(text: str) -> str:
    """What the file says that its image is called."""
    return re.search(r"^#\s+podman build --tag (\S+) --file Containerfile \.$", text, re.M)[1]


def installed_by(step: str) -> list[str]:
    """The packages that a step installs by apt-get."""
    found = re.search(r"apt-get install ([^&]*)", step)
    return [name for name in found[1].split() if not name.startswith("-")] if found else []


def judge_text(checks: Checks, archive_name: str) -> str:
    """The file's instructions are known ones, install what the bridges want, and add the release's archive; its tag is answered."""
    text = FILE.read_text(encoding="utf-8")
    steps = instructions(text)
    checks.expect("the Containerfile's instructions", [], [it.word for it in steps if it.word not in KNOWN])
    checks.expect("it begins with Debian's image", [BASE], [it.rest for it in steps if it.word == "FROM"])
    installed = [name for it in steps if it.word == "RUN" for name in installed_by(it.rest)]
    checks.expect("it installs what the package depends on and recommends", sorted(PACKAGES), sorted(installed))
    added = [shlex.split(it.rest)[0] for it in steps if it.word == "ADD"]
    checks.expect("it adds the release's archive", [archive_name], added)
    return tag(text)


def built(root: Path, archive: Path) -> Image:
    """The image: each instruction but the first two is done in the root."""
    image = Image(root)
    for step in instructions(FILE.read_text(encoding="utf-8")):
        if step.word == "ADD":
            # (an archive is unpacked where it is added)
            with tarfile.open(archive) as packed:
                packed.extractall(root / shlex.split(step.rest)[1].lstrip("/"))
        elif step.word == "ENV":
            name, _, value = step.rest.partition("=")
            image.environment[name] = value
        elif step.word == "USER":
            image.user = int(step.rest.partition(":")[0])
        elif step.word == "CMD":
            image.command = [part.strip('" ') for part in step.rest.strip("[]").split(",")]
        elif step.word == "RUN" and not installed_by(step.rest):
            subprocess.run(["chroot", root, "sh", "-ec", step.rest], check=True, env={**os.environ, **image.environment})
    return image
