"""Remarks on the store that a verdict or a verification rests on: whether it has rows at all, whether etcd has what it has, and
whether the API server that reloads may still write what its new file doesn't read."""

import hashlib
import json
from pathlib import Path

import looks
import plain_files
import store_lines
from call_words import entries_of, provider_text
from reference import rollout

# A store's file without any row is its first bytes alone.
HEAD = 8


def after(call, status, _errors):
    if call.command not in ("judge", "verify") or status not in (0, 1) or not call.one("store"):
        return []
    told = [*without_rows(call), *not_written_back(call)]
    return told + (list(own_writes(call)) if call.command == "judge" and status == 0 else [])


def without_rows(call):
    """A store of no rows: emptied, of another name, or never filled."""
    name = call.one("store")
    try:
        size = Path(name).stat().st_size
    except OSError:
        size = 0
    if size > HEAD:
        return []
    return [f"remark: {name} has no rows, so this says nothing of any object: is it the store that was filled, and whole?"]


def not_written_back(call):
    """A store that came out of etcd, and has rows of a rewrite since: as long as etcd hasn't these, it is another than etcd."""
    name = call.one("store")
    imported = store_lines.imported_rows(name)
    rows = looks.rows_of(name) if imported is not None else None
    more = len(rows) - imported if rows is not None else 0
    if more <= 0 or is_noted(name):
        return []
    rows_more = "1 row" if more == 1 else f"{more} rows"
    return [
        f"remark: {name} has {rows_more} more than were imported, and nothing says that they were written back: etcd keeps the old values "
        f"until store-to-etcd --store {name} is done"
    ]


def is_noted(name):
    """Whether an export noted beside the store that etcd has all rows that the file has now."""
    try:
        noted = json.loads(plain_files.content(name + ".written"))
        return noted["store"] == hashlib.sha256(plain_files.content(name)).hexdigest()
    except (OSError, ValueError, KeyError, TypeError):
        return False


def own_writes(call):
    """A pass of a file that doesn't read what its API server itself writes until it has read it."""
    number, _, name = (call.one("reload") or "").partition("=")
    replicas = call.options.get("replica", [])
    old = entries_of(replicas[int(number)]) if number.isdigit() and int(number) < len(replicas) else None
    new = entries_of(name) if name else None
    if old is None or new is None:
        return
    lost = {}
    for found in rollout.classes_of(old, new):
        writer = rollout.list_at(old, found)[0]
        if writer not in rollout.list_at(new, found):
            lost.setdefault(provider_text(writer), []).append(found)
    for writer, classes in lost.items():
        of = ", ".join(classes[:3]) + (", .." if len(classes) > 3 else "")
        yield (
            f"remark: API server {number} still writes by {writer} ({of}), which {name} doesn't read: a write before its restart can't be "
            "read afterwards. Turn first, with a file that writes with the new key and still reads this one, or follow `plan`"
        )
