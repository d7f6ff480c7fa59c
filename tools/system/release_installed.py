"""What a release has, and how it is installed and taken away again."""
import os
import re
import shutil
from collections.abc import Iterator
from pathlib import Path

from release_made import Elsewhere, Release
from support import TOP, Checks, call

FOREIGN = "bin/etcd-audit"


def same_bytes(checks: Checks, first: Release, room: Path) -> None:
    """Made a second time, in other ways that must not matter, it has the same bytes."""
    room.mkdir()
    kept = os.umask(0o077)
    second = Release.made(room, TZ="Asia/Tokyo", LC_ALL="C", SOURCE_DATE_EPOCH="1")
    os.umask(kept)
    for one, other in ((first.archive, second.archive), (first.package, second.package)):
        checks.expect(f"two runs make the same {one.suffix[1:]}", True, one.read_bytes() == other.read_bytes())


def broken_links(library: Path) -> Iterator[str]:
    """Links of documents to what isn't there."""
    for page in sorted(library.rglob("*.md")):
        for name in re.findall(r"\]\(([^)#]+)[^)]*\)", page.read_text(encoding="utf-8")):
            if "://" not in name and not (page.parent / name).exists():
                yield f"{page.relative_to(library)}: {name}"


def content(checks: Checks, root: Path) -> None:
    """What stands in it is summed up, links to what is there, and speaks of nothing that isn't."""
    files = [path for path in root.rglob("*") if path.is_file() and not path.is_symlink()]
    named = {str(path.relative_to(root)) for path in files} - {"SHA256SUMS"}
    sums = (root / "SHA256SUMS").read_text(encoding="utf-8").splitlines()
    checks.expect("SHA256SUMS has each file", named, {line.split("  ", 1)[1] for line in sums})
    checks.expect("the sums are right", 0, call(["sha256sum", "-c", "--quiet", "SHA256SUMS"], cwd=root).status)
    checks.expect("no link of a document leads nowhere", [], list(broken_links(root)))
    speaks = [str(path.relative_to(root)) for path in files if b"tools/" in path.read_bytes()]
    checks.expect("no file names the repository's programs", [], speaks)
    left = [name for name in named if "__pycache__" in name or name.endswith(".pyc")]
    checks.expect("nothing that Python left", [], left)
    for name in ("kmsrest", "kmsplug"):
        sections = call(["readelf", "-S", root / "lib" / "kmsrest" / "libexec" / name]).output
        checks.expect(f"{name} is stripped", (True, False), (b".text" in sections, b".symtab" in sections))


def tree_of(folder: Path) -> set[str]:
    return {str(path.relative_to(folder)) for path in folder.rglob("*")}


def install(root: Path, prefix: Path):
    return call([root / "install.sh", "--prefix", prefix], cwd="/")


def refusals(checks: Checks, root: Path, room: Path) -> None:
    """A release with another byte, and a file in the way that isn't its own: nothing is written."""
    broken = room / "broken"
    shutil.copytree(root, broken, symlinks=True)
    (broken / "lib" / "kmsrest" / "VERSION").write_text("9.9.9\n", encoding="utf-8")
    prefix = room / "refused"
    prefix.mkdir()
    done = install(broken, prefix)
    told = (done.status, "SHA256SUMS tells which file" in done.errors, tree_of(prefix))
    checks.expect("a release with another byte is refused", (1, True, set()), told)
    (prefix / "bin").mkdir()
    (prefix / FOREIGN).write_text("mine\n", encoding="utf-8")
    done = install(root, prefix)
    kept = (prefix / FOREIGN).read_text(encoding="utf-8")
    told = (done.status, f"{FOREIGN} is there" in done.errors, kept, tree_of(prefix))
    checks.expect("another's file in the way is refused, and kept", (1, True, "mine\n", {"bin", FOREIGN}), told)
    done = call([root / "install.sh", "--perfix", prefix])
    checks.expect("a wrong word is refused", (1, True), (done.status, "what is --perfix?" in done.errors))
    done = call([root / "lib" / "kmsrest" / "uninstall.sh"])
    checks.expect("uninstall.sh of what wasn't installed is refused", (1, True), (done.status, (root / "bin" / "kmsrest").exists()))


def comes_and_goes(checks: Checks, root: Path, room: Path) -> None:
    """Installed over itself and an older one, and taken away: what was there before is there behind it, and nothing more."""
    prefix = room / "a prefix"
    (prefix / "bin").mkdir(parents=True)
    (prefix / "bin" / "mine").write_text("mine\n", encoding="utf-8")
    before = tree_of(prefix)
    checks.expect("install.sh", 0, install(root, prefix).status)
    placed = tree_of(prefix)
    older = prefix / "lib" / "kmsrest" / "of-an-older-one"
    older.write_text("old\n", encoding="utf-8")
    with open(prefix / "lib" / "kmsrest" / "INSTALLED", "a", encoding="utf-8") as listed:
        listed.write("lib/kmsrest/of-an-older-one\n")
    done = install(root, prefix)
    checks.expect("install.sh over an older one leaves what the new one has", (0, set()), (done.status, tree_of(prefix) ^ placed))
    lines = (root / "SHA256SUMS").read_text(encoding="utf-8").splitlines()
    sums = "".join(line + "\n" for line in lines if "  lib/" in line or "  share/" in line)
    checks.expect("which is the new one's, byte for byte", 0, call(["sha256sum", "-c", "--quiet"], sums.encode(), cwd=prefix).status)
    call([prefix / "bin" / "etcd-audit", "--help"])
    call([prefix / "lib" / "kmsrest" / "bridges" / "etcd-audit", "--snapshot", "/nonexistent"])
    done = call([prefix / "lib" / "kmsrest" / "uninstall.sh"])
    checks.expect("uninstall.sh leaves what was there before", (0, set()), (done.status, tree_of(prefix) ^ before))
    done = call([root / "install.sh", "--prefix", "from here"], cwd=room)
    told = (done.status, (room / "from here" / "bin" / "kmsrest").exists(), (root / "from here").exists())
    checks.expect("a prefix without a / in front is below the caller's folder", (0, True, False), told)
    call([room / "from here" / "lib" / "kmsrest" / "uninstall.sh"])


def runs_unpacked(checks: Checks, root: Path, room: Path) -> None:
    """It runs where it was unpacked, and each of its programs answers by its name."""
    place = Elsewhere.at(root)
    folder = place.own_folder(room / "unpacked-work")
    place.judge(checks, folder)
    version = (TOP / "VERSION").read_text(encoding="utf-8")
    for name in ("kmsrest", "kubectl-kmsrest"):
        done = place.call(name, "--version", folder=folder)
        checks.expect(f"{name} --version, as it was unpacked", (0, f"kmsrest {version}"), (done.status, done.output.decode()))
    done = place.call("kmsrest", "check", "--config", place.library / "examples" / "identity.yaml", folder=folder)
    checks.expect("kmsrest check, as it was unpacked", (0, b"entry 0: "), (done.status, done.output[:9]))
    for name in sorted(path.name for path in (root / "bin").iterdir()):
        done = place.call(name, "--help", folder=folder)
        checks.expect(f"{name} --help", (0, True), (done.status, len(done.output) > 100))
    done = place.call("kmsrest", "--build", folder=folder)
    checks.expect("an installed one builds nothing", (70, True), (done.status, "builds nothing" in done.errors))


def check(checks: Checks, release: Release, root: Path, room: Path) -> None:
    same_bytes(checks, release, room / "again")
    content(checks, root)
    refusals(checks, root, room)
    comes_and_goes(checks, root, room)
    runs_unpacked(checks, root, room)
