"""Which store is in etcd: noted beside it once all of its rows went back, so that `judge` and `verify` of it needn't warn."""

import hashlib
import json
import os
from pathlib import Path


def note_of(store: str) -> Path:
    return Path(store + ".written")


def note(store: str) -> None:
    """Notes the store's bytes as they are now. Where that can't be written, a warning more is all that comes of it."""
    name = note_of(store)
    try:
        text = json.dumps({"store": hashlib.sha256(Path(store).read_bytes()).hexdigest()}) + "\n"
        draft = name.with_name(f".{name.name}.{os.getpid()}")
        with open(os.open(draft, os.O_WRONLY | os.O_CREAT | os.O_EXCL | os.O_CLOEXEC, 0o600), "w", encoding="utf-8") as file:
            file.write(text)
        os.replace(draft, name)
    except OSError:
        return
