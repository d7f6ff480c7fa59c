"""The Debian package of a release."""
import gzip
import os
import re
import shutil
import subprocess
from pathlib import Path

from . import content, tree
from .tree import NotSo

RECOMMENDED = ("python3-grpcio", "python3-protobuf", "python3-cryptography", "python3-yaml", "etcd-client")
MAINTAINER = "The makers of kmsrest <kmsrest@localhost>"
DESCRIPTION = """storage encryption layer of the Kubernetes API server, verified
 kmsrest seals and reads the values that an API server stores in etcd as its
 EncryptionConfiguration says, tells whether an API server may get another
 configuration now, and seals anew what is stored. Bridges bring values from
 etcd and back, and ask KMS v2 plugins over gRPC."""
# What Python leaves beside its sources isn't dpkg's.
BEFORE_REMOVAL = """#!/bin/sh
set -e
find /usr/lib/kmsrest -depth -type d -name __pycache__ -exec rm -rf {} +
"""
# Debian's zsh looks here, and not where the makers of zsh put what is installed beside it.
ZSH, DEBIAN_ZSH = "share/zsh/site-functions", "share/zsh/vendor-completions"


def symbols_version(program: Path) -> str:
    """The oldest C library that has all that the program asks of it."""
    told = subprocess.run(["objdump", "-T", program], capture_output=True, text=True, check=True).stdout
    found = {tuple(map(int, version.split("."))) for version in re.findall(r"GLIBC_([0-9.]+)", told)}
    if not found:
        raise NotSo(f"objdump finds nothing of the C library in {program}")
    return ".".join(map(str, max(found)))


def control(root: Path, version: str) -> str:
    """What dpkg is told of the package."""
    library = root / "usr" / content.LIBRARY / "libexec"
    needed = max((symbols_version(library / name) for name in tree.PROGRAMS), key=lambda told: [int(part) for part in told.split(".")])
    size = sum(path.stat().st_size for path in content.files_below(root) if path.is_file() and not path.is_symlink())
    fields = {
        "Package": "kmsrest",
        "Version": version,
        "Architecture": "amd64",
        "Maintainer": MAINTAINER,
        "Installed-Size": str(-(-size // 1024)),
        "Depends": f"python3, libc6 (>= {needed})",
        "Recommends": ", ".join(RECOMMENDED),
        "Section": "admin",
        "Priority": "optional",
        "Description": DESCRIPTION,
    }
    return "".join(f"{name}: {value}\n" for name, value in fields.items())


def arrange(root: Path) -> None:
    """What stands elsewhere in Debian, or in another form."""
    share = root / "usr" / "share"
    (root / "usr" / DEBIAN_ZSH).parent.mkdir(parents=True, exist_ok=True)
    (root / "usr" / ZSH).rename(root / "usr" / DEBIAN_ZSH)
    for page in sorted((share / "man" / "man1").iterdir()):
        content.put(page.with_name(page.name + ".gz"), gzip.compress(page.read_bytes(), 9, mtime=0), content.PLAIN)
        page.unlink()
    told = "kmsrest is under the Apache License, version 2.0: /usr/share/common-licenses/Apache-2.0\n"
    content.put(share / "doc" / "kmsrest" / "copyright", told.encode(), content.PLAIN)


def describe(root: Path, version: str) -> None:
    """The folder DEBIAN, with the sums of all files."""
    files = [path for path in content.files_below(root) if path.is_file() and not path.is_symlink()]
    sums = subprocess.run(["md5sum", *(path.relative_to(root) for path in files)], cwd=root, capture_output=True, check=True).stdout
    content.put(root / "DEBIAN" / "control", control(root, version).encode(), content.PLAIN)
    content.put(root / "DEBIAN" / "md5sums", sums, content.PLAIN)
    content.put(root / "DEBIAN" / "prerm", BEFORE_REMOVAL.encode(), content.EXECUTABLE)


def make(prefix: Path, room: Path, target: Path, seconds: int, version: str) -> None:
    """The package of what stands below a prefix."""
    root = room / "debian"
    shutil.copytree(prefix, root / "usr", symlinks=True)
    arrange(root)
    describe(root, version)
    for path in [root, *content.files_below(root)]:
        if path.is_dir() and not path.is_symlink():
            path.chmod(content.EXECUTABLE)
        os.utime(path, (seconds, seconds), follow_symlinks=False)
    words = ["dpkg-deb", "--root-owner-group", "-Zxz", "--threads-max=1", "--build", root, target]
    environment = {**os.environ, "SOURCE_DATE_EPOCH": str(seconds)}
    done = subprocess.run(words, env=environment, capture_output=True, text=True, check=False)
    if done.returncode != 0:
        raise NotSo(f"dpkg-deb: {done.stderr.strip()}")
