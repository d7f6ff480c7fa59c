"""Each class of files that the API server refuses, or reads otherwise, is told by kmsrest-vet under its own name."""

import os
import subprocess
from pathlib import Path

from asking import PATIENCE, TOP, expect
from differences import ALL, Side
from own_files import OWN

VET = TOP / "bridges" / "kmsrest-vet"


def minor(version: str) -> str:
    """As vet names a version: `1.20` of `1.20.2`."""
    return ".".join(version.split(".")[:2])


def check(folder: Path, version: str) -> int:
    """How many files vet was asked of."""
    file, count = folder / "vetted", 0
    for name, content in OWN:
        if ALL[name].side is Side.THERE:
            continue
        file.write_bytes(content)
        os.chmod(file, 0o600)
        words = [VET, "--kubernetes", minor(version), os.devnull, file]
        told = subprocess.run(words, capture_output=True, text=True, timeout=PATIENCE, check=False).stdout
        expect(any(f": {name}: " in line for line in told.splitlines()), f"kmsrest-vet doesn't tell {name} of {content!r}, but {told}")
        count += 1
    return count
