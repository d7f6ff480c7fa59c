"""What stands in a release, as it stands below a prefix: bin, lib and share."""
import os
import re
import shutil
import subprocess
from pathlib import Path

from . import tree
from .tree import NotSo, TOP

LIBRARY = "lib/kmsrest"
DOCUMENTS = "share/doc/kmsrest"
# What of the repository is taken whole, and what of it is left out: what makes pages, what builds, and what protoc reads.
TAKEN = ("kmsrest", "VERSION", "front", "help", "reference", "bridges", "examples")
LEFT = (
    *("help/write", "help/manual.py", "help/completions.py", "help/programs.py", "help/kmsrest.1", "help/kmsrest.bash"),
    *("front/building", "bridges/proto"),
)
# The documents for operators.
PAGES = ("OPERATORS", "BRIDGES", "FORMATS", "GLOSSARY", "PLAN", "THREATS", "FAQ")
# Of the page on tests what they show is left out: it speaks of the repository's own checks.
LIMITS, TESTS = "TESTED", "Only tested"
LIMITS_HEAD = "# What nothing shows\n\nThe repository's page of this name has what tests show, too.\n"
# The Python that has Debian's modules, as the bridges have it.
PYTHON = "/usr/bin/python3"
EXECUTABLE, PLAIN = 0o755, 0o644


def put(target: Path, data: bytes, mode: int) -> None:
    """Writes a file with its folders."""
    target.parent.mkdir(parents=True, exist_ok=True)
    target.write_bytes(data)
    target.chmod(mode)


def mode_of(name: str) -> int:
    return EXECUTABLE if os.access(TOP / name, os.X_OK) else PLAIN


def link(place: Path, target: Path) -> None:
    """A link that stays right wherever the whole is moved."""
    place.parent.mkdir(parents=True, exist_ok=True)
    place.symlink_to(os.path.relpath(target, place.parent))


def is_left(name: str) -> bool:
    return any(name == one or name.startswith(one + "/") for one in LEFT)


def copy_sources(library: Path) -> None:
    """Front end, help, bridges with what they stand on, and examples."""
    for name in tree.files_of(TAKEN):
        if not is_left(name):
            put(library / name, (TOP / name).read_bytes(), mode_of(name))


def without_section(text: str, heading: str) -> str:
    """A document's sections of level 2, but for one of them."""
    sections = re.split(r"(?m)^(?=## )", text)
    kept = [section for section in sections[1:] if not section.startswith(f"## {heading}\n")]
    if len(kept) != len(sections) - 2:
        raise NotSo(f"docs/{LIMITS}.md has no section {heading!r}, or several")
    return LIMITS_HEAD + "\n" + "".join(kept)


def copy_documents(library: Path) -> None:
    for name in PAGES:
        put(library / "docs" / f"{name}.md", (TOP / "docs" / f"{name}.md").read_bytes(), PLAIN)
    limits = without_section((TOP / "docs" / f"{LIMITS}.md").read_text(encoding="utf-8"), TESTS)
    put(library / "docs" / f"{LIMITS}.md", limits.encode(), PLAIN)


def strip(program: Path, target: Path) -> None:
    """The program without its symbols."""
    target.parent.mkdir(parents=True, exist_ok=True)
    done = subprocess.run(["strip", "--strip-all", "-o", target, program], capture_output=True, text=True, check=False)
    if done.returncode != 0:
        raise NotSo(f"strip {program}: {done.stderr.strip()}")
    target.chmod(EXECUTABLE)


def write_pages(root: Path) -> None:
    """Man pages and completions, as help/write makes them of each program's words."""
    done = subprocess.run([PYTHON, TOP / "help" / "write", "into", root], capture_output=True, text=True, check=False)
    if done.returncode != 0:
        raise NotSo(done.stderr.strip())
    for path in (root / "share").rglob("*"):
        path.chmod(EXECUTABLE if path.is_dir() else PLAIN)


def link_programs(root: Path) -> None:
    """What is called by its name: kmsrest, also as kubectl finds it, and each bridge."""
    library = root / LIBRARY
    for name in ("kmsrest", "kubectl-kmsrest"):
        link(root / "bin" / name, library / "kmsrest")
    for path in sorted((library / "bridges").iterdir()):
        if path.is_file() and os.access(path, os.X_OK):
            link(root / "bin" / path.name, path)


def read_me() -> str:
    """What a release says of itself first."""
    return (TOP / "tools" / "releasing" / "README.md").read_text(encoding="utf-8").replace("VERSION", tree.version())


def fill(root: Path, programs: dict[str, Path], proved: str) -> None:
    """Writes all that stands below a prefix."""
    library = root / LIBRARY
    copy_sources(library)
    copy_documents(library)
    for name, program in programs.items():
        strip(program, library / "libexec" / name)
    put(library / "README.md", read_me().encode(), PLAIN)
    put(library / "PROVED", proved.encode(), PLAIN)
    put(library / "LICENSE", (TOP / "LICENSE").read_bytes(), PLAIN)
    write_pages(root)
    link_programs(root)
    for name in ("README.md", "PROVED", "LICENSE", "docs", "examples"):
        link(root / DOCUMENTS / name, library / name)


def files_below(root: Path) -> list[Path]:
    """All files, links and folders below a folder, sorted by the bytes of their names."""
    return sorted(root.rglob("*"), key=lambda path: os.fsencode(path.relative_to(root)))


def clear(folder: Path) -> None:
    """An empty folder."""
    shutil.rmtree(folder, ignore_errors=True)
    folder.mkdir(parents=True)
