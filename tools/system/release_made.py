"""A release that a check makes, and where it is tried: unpacked or installed, by another user, without the repository and the kit."""
import os
import shutil
import subprocess
import sys
import tarfile
from dataclasses import dataclass
from pathlib import Path

from support import TOP, Checks, Ended, call, kmsrest_program

NOBODY = 65534
# What the gate keeps for a release, from before its proofs on.
RECORD = TOP / "out" / "gate.json"
PROGRAMS_OF_SYSTEM = ("/usr/bin", "/bin")
# What can't be hidden, should the kit's program stand there.
SYSTEM_FOLDERS = (Path("/"), Path("/usr"))

# Hides folders below empty ones, and gives up root's rights.
HIDE = 'while [ "$1" != -- ]; do mount -t tmpfs none "$1"; shift; done; shift; exec setpriv --reuid={0} --regid={0} --clear-groups -- "$@"'


def system_path() -> str:
    """The path without anything of ours: the system's, and where etcd's programs stand."""
    found = [os.path.dirname(place) for place in map(shutil.which, ("etcd", "etcdctl")) if place]
    return ":".join(dict.fromkeys((*PROGRAMS_OF_SYSTEM, *found)))


def archive_name() -> str:
    """The name of a release's archive."""
    return f"kmsrest-{(TOP / 'VERSION').read_text(encoding='utf-8').strip()}-linux-x86_64.tar.gz"


class NoRelease(Exception):
    """Why tools/release made none."""


def release_words() -> list[str]:
    """The words of tools/release: of what the gate proved, where its record is here; else a trial, as of drafts or of KMSREST's
    program with the kmsplug beside it."""
    if "KMSREST" not in os.environ and RECORD.exists():
        return ["--in-gate"]
    program = kmsrest_program()
    plugin = program.with_name("kmsplug")
    return ["--trial", str(program), str(plugin if plugin.exists() else TOP / "crates" / "kmsplug" / "out" / "kmsplug")]


@dataclass(frozen=True)
class Release:
    """Both files of a release."""

    archive: Path
    package: Path

    @classmethod
    def made(cls, into: Path, **environment: str) -> "Release":
        """Made in this folder, in this environment beside ours."""
        words = [sys.executable, TOP / "tools" / "release", *release_words(), "--into", into]
        done = call(words, timeout=600, env={**os.environ, **environment}, cwd=into)
        if done.status != 0:
            raise NoRelease(done.errors.strip())
        return cls(next(into.glob("*.tar.gz")), next(into.glob("*.deb")))

    def unpacked(self, folder: Path) -> Path:
        """The folder that the archive has, unpacked here."""
        with tarfile.open(self.archive) as archive:
            archive.extractall(folder)
        (root,) = folder.iterdir()
        return root


def kit_folder() -> Path | None:
    """The folder of the kit, where its `rt` is on the path."""
    found = shutil.which("rt")
    folder = Path(found).resolve().parents[1] if found else None
    return None if folder in SYSTEM_FOLDERS else folder


@dataclass(frozen=True)
class Elsewhere:
    """Where a release is used: below a prefix, by a user who has nothing else of ours."""

    prefix: Path
    starter: tuple[str, ...]
    owner: int | None

    @classmethod
    def at(cls, prefix: Path) -> "Elsewhere":
        """As nobody, with the repository and the kit hidden, where root's rights are here; else as this user, with another path."""
        if os.getuid() != 0:
            return cls(prefix, (), None)
        hidden = [str(folder) for folder in (TOP, kit_folder()) if folder]
        words = ("unshare", "--mount", "sh", "-ec", HIDE.format(NOBODY), "sh")
        can_hide = subprocess.run([*words, *hidden, "--", "true"], capture_output=True, check=False).returncode == 0
        return cls(prefix, (*words, *(hidden if can_hide else []), "--"), NOBODY)

    @property
    def library(self) -> Path:
        return self.prefix / "lib" / "kmsrest"

    @property
    def environment(self) -> dict[str, str]:
        return {"PATH": f"{self.prefix}/bin:{system_path()}", "HOME": "/nonexistent", "LC_ALL": "C.UTF-8", "TOP": str(self.library)}

    def own_folder(self, folder: Path) -> Path:
        """A folder in which that user may write."""
        folder.mkdir()
        if self.owner is not None:
            os.chown(folder, self.owner, self.owner)
        return folder

    def call(self, *words: object, folder: Path, data: bytes = b"", **environment: str) -> Ended:
        return call([*self.starter, *words], data, cwd=folder, env={**self.environment, **environment}, timeout=600)

    def judge(self, checks: Checks, folder: Path) -> None:
        """What isn't there for that user, or is there and can't be entered. The check says where it can't be taken away."""
        if self.owner is None:
            print("(not root here: the release is tried by this user, who may see the repository)", flush=True)
            return
        seen = self.call("sh", "-c", f"id -u; ls -A {TOP} 2>/dev/null; command -v rt", folder=folder)
        checks.expect("another user, without the repository and without rt", (f"{NOBODY}\n".encode(), ""), (seen.output, seen.errors))
