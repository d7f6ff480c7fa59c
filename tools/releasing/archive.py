"""The archive of a release, whose bytes are those of its tree and of its commit's time alone."""
import gzip
import shutil
import tarfile
from pathlib import Path

from . import content, tree

HERE = Path(__file__).resolve().parent
ROOT = "root"


def sums(root: Path) -> str:
    """The sums of all files, as `sha256sum -c` reads them."""
    files = [path for path in content.files_below(root) if path.is_file() and not path.is_symlink()]
    return "".join(f"{tree.sum_of_file(path)}  {path.relative_to(root)}\n" for path in files)


def complete(root: Path) -> None:
    """What an archive has beside the tree below a prefix: how to install it, and the sums of all."""
    for name in ("README.md", "PROVED", "LICENSE"):
        content.put(root / name, (root / content.LIBRARY / name).read_bytes(), content.PLAIN)
    content.put(root / "install.sh", (HERE / "install.sh").read_bytes(), content.EXECUTABLE)
    content.put(root / content.LIBRARY / "uninstall.sh", (HERE / "uninstall.sh").read_bytes(), content.EXECUTABLE)
    content.put(root / "SHA256SUMS", sums(root).encode(), content.PLAIN)


def entry(path: Path, name: str, seconds: int) -> tarfile.TarInfo:
    """What the archive says of a file: root's, of the commit's time, and readable by all."""
    told = tarfile.TarInfo(name)
    told.mtime, told.uname, told.gname = seconds, ROOT, ROOT
    if path.is_symlink():
        told.type, told.linkname, told.mode = tarfile.SYMTYPE, path.readlink().as_posix(), 0o777
    elif path.is_dir():
        told.type, told.mode = tarfile.DIRTYPE, content.EXECUTABLE
    else:
        told.size, told.mode = path.stat().st_size, path.stat().st_mode & 0o777
    return told


def write(root: Path, target: Path, seconds: int) -> None:
    """Writes the archive of a folder, which it names by the folder's own name."""
    with open(target, "wb") as raw, gzip.GzipFile("", "wb", 9, raw, mtime=0) as packed:
        with tarfile.open(fileobj=packed, mode="w", format=tarfile.USTAR_FORMAT) as archive:
            for path in [root, *content.files_below(root)]:
                told = entry(path, str(path.relative_to(root.parent)), seconds)
                if told.isreg():
                    with open(path, "rb") as file:
                        archive.addfile(told, file)
                else:
                    archive.addfile(told)


def make(prefix: Path, room: Path, name: str, target: Path, seconds: int) -> None:
    """The archive of what stands below a prefix."""
    root = room / name
    shutil.copytree(prefix, root, symlinks=True)
    complete(root)
    write(root, target, seconds)
