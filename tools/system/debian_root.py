#!/usr/bin/python3
"""A Debian that has nothing but what a package of ours asks for: made by debootstrap, and kept as an archive outside of the repository.

    tools/system/debian_root.py     makes it, where none of this Debian's version and of these packages is kept

The suite and the mirror are those of this machine's apt. It is kept in ${XDG_CACHE_HOME:-~/.cache}/kmsrest."""
import contextlib
import fcntl
import hashlib
import os
import re
import shutil
import subprocess
import sys
import tempfile
import time
from collections.abc import Iterator
from pathlib import Path

from support import TOP, Ended, call

sys.path.insert(0, str(TOP / "tools"))
sys.path.insert(0, str(TOP / "tools" / "cross" / "api-server"))
import building  # noqa: E402 (their folders must be on the path first)
from releasing.debian import RECOMMENDED  # noqa: E402

# What it has beside the least that a Debian can be: what the package depends on and recommends.
PACKAGES = ("python3", *RECOMMENDED)
NEEDED = {"debootstrap": "debootstrap", "unshare": "util-linux", "chroot": "coreutils", "tar": "tar"}
INSTALL = "apt-get update -q && apt-get install -y -q --no-install-recommends {} && apt-get clean && rm -rf /var/lib/apt/lists/*"
# A shell in the root, with the system's files of processes below it; its mounts end with it.
ENTER = 'mount -t proc proc "$1/proc"; root=$1; shift; exec chroot "$root" "$@"'


class Missing(Exception):
    """Why there is none."""


def source() -> tuple[str, str]:
    """The mirror and the suite that apt has Python from."""
    told = subprocess.run(["apt-cache", "madison", "python3"], capture_output=True, text=True, check=False).stdout
    found = re.search(r"\| *\S+ \| *(\S+) ([^/ ]+)/\S+ \S+ Packages", told)
    if found is None:
        raise Missing("apt knows no package python3")
    return found[1], found[2]


def kept() -> Path:
    """Where the archive is kept, by Debian's version and the packages."""
    version = Path("/etc/debian_version").read_text(encoding="utf-8").strip().replace("/", "-")
    return building.cache() / f"debian-{version}-minbase-{hashlib.sha256(' '.join(PACKAGES).encode()).hexdigest()[:12]}.tar"


def run(words: list[object], seconds: float, log: Path) -> None:
    """Runs one step of making it; mounts that it leaves end with it."""
    with open(log, "ab") as told:
        try:
            # (with --kill-child nothing that it began goes on where it takes too long)
            started = ["unshare", "--mount", "--pid", "--fork", "--kill-child", *map(str, words)]
            done = subprocess.run(started, stdin=subprocess.DEVNULL, stdout=told, stderr=told, timeout=max(seconds, 1), check=False)
        except subprocess.TimeoutExpired:
            raise Missing(f"{words[0]} took longer than it may") from None
    if done.returncode != 0:
        raise Missing(f"{words[0]} ended with {done.returncode}: {log.read_text(errors='replace').strip().splitlines()[-1]}")


def make(archive: Path, seconds: float) -> Path:
    """Makes the archive within so many seconds."""
    end = time.monotonic() + seconds
    mirror, suite = source()
    with tempfile.TemporaryDirectory(prefix="making-", dir=archive.parent, ignore_cleanup_errors=True) as folder:
        root, log, draft = Path(folder) / "root", Path(folder) / "log", Path(folder) / archive.name
        run(["debootstrap", "--variant=minbase", "--include=python3", suite, root, mirror], end - time.monotonic(), log)
        shell = ["env", "DEBIAN_FRONTEND=noninteractive", "LC_ALL=C", "sh", "-c", INSTALL.format(" ".join(PACKAGES))]
        run(["sh", "-ec", ENTER, "sh", root, *shell], end - time.monotonic(), log)
        run(["tar", "--one-file-system", "-C", root, "-cf", draft, "."], end - time.monotonic(), log)
        draft.replace(archive)
    return archive


def had(seconds: float) -> Path:
    """The archive that is kept, or is made now within so many seconds. Who comes while it is made waits for it."""
    archive = kept()
    archive.parent.mkdir(parents=True, exist_ok=True)
    with open(archive.with_suffix(".lock"), "wb") as lock:
        fcntl.flock(lock, fcntl.LOCK_EX)
        return archive if archive.exists() else make(archive, seconds)


def judge_what_is_here() -> None:
    if os.getuid() != 0:
        raise Missing("a Debian of its own wants root's rights")
    for program, package in NEEDED.items():
        if shutil.which(program) is None:
            raise Missing(f"there is no {program} (tools/install-checks installs {package})")


class Root:
    """A root that is unpacked, and thrown away behind all."""

    def __init__(self, folder: Path):
        self.folder = folder

    def call(self, *words: object, data: bytes = b"", user: int = 0, **environment: str) -> Ended:
        """Calls a program in it: as root, or as another user."""
        own = {"PATH": "/usr/sbin:/usr/bin:/sbin:/bin", "HOME": "/nonexistent", "LC_ALL": "C.UTF-8", **environment}
        as_user = ["setpriv", f"--reuid={user}", f"--regid={user}", "--clear-groups", "--"] if user else []
        start = ["unshare", "--mount", "--pid", "--fork", "--kill-child", "sh", "-ec", ENTER, "sh", self.folder]
        return call([*start, *as_user, *words], data, env=own, timeout=600)

    def files(self) -> set[str]:
        """What stands in it, but for what dpkg and apt keep for themselves."""
        own = ("var/lib/dpkg/", "var/lib/apt/", "var/cache/", "var/log/", "proc/", "tmp/")
        found = (str(path.relative_to(self.folder)) for path in self.folder.rglob("*"))
        return {name for name in found if not name.startswith(own)}


@contextlib.contextmanager
def unpacked(room: Path, seconds: float) -> Iterator[Root]:
    """A root, of the archive that is kept or made within so many seconds."""
    judge_what_is_here()
    archive = had(seconds)
    folder = room / "debian-root"
    folder.mkdir()
    done = call(["tar", "-C", folder, "-xpf", archive], timeout=600)
    if done.status != 0:
        raise Missing(f"{archive} can't be unpacked: {done.errors.strip()}")
    yield Root(folder)


def main() -> int:
    """Makes it where it isn't kept. Answers the status."""
    try:
        judge_what_is_here()
        print(had(3600))
    except Missing as no:
        print(f"debian_root: {no}", file=sys.stderr)
        return 1
    return 0


if __name__ == "__main__":
    sys.exit(main())
