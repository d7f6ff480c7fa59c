"""The file of a store: its rows, and what breaks it first."""

from .values import HEADS, MARK, split
from .words import is_path, is_resource

MOST_STORE = 67_108_864
MOST_VALUE = 2_162_688
MAGICS = {1: b"KRSTORE1", 2: b"KRSTORE2"}


class Broken(Exception):
    """The bytes are no file of a store; a code and a place."""

    def __init__(self, code, place):
        super().__init__(code, place)
        self.code, self.place = code, place


class Row:
    """A put, or a delete where there is no value."""

    def __init__(self, path, resource=None, value=None, check=None):
        self.path, self.resource, self.value, self.check = path, resource, value, check


class Parts:
    """The bytes of a file from a place on; the parts of a row that begins at `row`."""

    def __init__(self, data):
        self.data, self.at, self.row = data, 8, 8

    def take(self, size):
        if len(self.data) - self.at < size:
            raise Broken(42, self.row)
        self.at += size
        return self.data[self.at - size : self.at]

    def number(self, size):
        return int.from_bytes(self.take(size), "big")

    def sized(self, most, width):
        size = self.number(width)
        if size > most:
            raise Broken(43, self.row)
        return self.take(size)

    def keeping(self, data, rule):
        if not rule(data):
            raise Broken(43, self.row)
        return data


def live(rows):
    """The live rows by their paths, each with its revision."""
    found = {}
    for revision, row in enumerate(rows, 1):
        found[row.path] = (revision, row)
    return {path: it for path, it in found.items() if it[1].value is not None}


def read(data):
    """The format and the rows of a file."""
    if not data:
        return 2, []
    form = next((form for form, magic in MAGICS.items() if data[:8] == magic), None)
    if form is None:
        if len(data) < 8 and any(magic.startswith(data) for magic in MAGICS.values()):
            raise Broken(42, 0)
        raise Broken(41, 0)
    parts, rows = Parts(data), []
    while parts.at < len(data):
        parts.row = parts.at
        rows.append(read_row(parts, form, rows))
    return form, rows


def read_row(parts, form, rows):
    kind = parts.keeping(parts.take(1), lambda byte: byte in (b"\1", b"\2"))
    if parts.number(8) != len(rows) + 1:
        raise Broken(46, parts.row)
    path = parts.keeping(parts.sized(1024, 2), is_path)
    if kind == b"\2":
        if path not in live(rows):
            raise Broken(43, parts.row)
        return Row(path)
    resource = parts.keeping(parts.sized(253, 2), is_resource)
    check = parts.take(8) if form == 2 else None
    return Row(path, resource, parts.sized(MOST_VALUE, 4), check)


def row_bytes(form, revision, row):
    text = lambda data, width: len(data).to_bytes(width, "big") + data
    head = revision.to_bytes(8, "big") + text(row.path, 2)
    if row.value is None:
        return b"\2" + head
    return b"\1" + head + text(row.resource, 2) + (row.check if form == 2 else b"") + text(row.value, 4)


def written(form, rows):
    """The file of the rows."""
    return MAGICS[form] + b"".join(row_bytes(form, revision, row) for revision, row in enumerate(rows, 1))


def tag(value):
    """A provider by the prefix of its value."""
    if not value.startswith(MARK):
        return b"plain"
    found = split(value)
    return found[0].encode() + b":" + found[1] if found else b"strange"


def listing(rows):
    return b"".join(b"%d %s %s %s\n" % (revision, row.resource, path, tag(row.value)) for path, (revision, row) in sorted(live(rows).items()))
