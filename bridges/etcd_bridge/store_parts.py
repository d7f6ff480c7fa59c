"""A store that is written row by row, in one file or in parts, each with its map."""

import re
from dataclasses import dataclass, field
from pathlib import Path

from reference.store import MAGICS, MOST_STORE, Row, row_bytes

from .errors import Refused
from .maps import Map, MapRow, cluster_text
from .new_files import NewFile, NewFiles, clear_killed

# A rewrite puts as many rows behind those that are there.
HALF = MOST_STORE // 2


@dataclass
class Target:
    """Where a store goes: its name, its map's (None: the store's with `.map` behind it), whether there is a map, the format
    (1 or 2), and how many bytes a part may have, if it has parts."""

    store: str
    map: str | None
    has_map: bool
    format: int
    part: int | None

    def numbered(self, name: str, number: int) -> str:
        return name if self.part is None else f"{name}.{number:03}"

    def store_name(self, number: int) -> str:
        return self.numbered(self.store, number)

    def first_name(self) -> str:
        """The name that is given first."""
        return self.map_name(1) if self.has_map else self.store_name(1)

    def folders(self) -> set[Path]:
        return {Path(name).parent for name in (self.store_name(1), *([self.map_name(1)] if self.has_map else []))}

    def names(self) -> re.Pattern:
        """The names of all its files, without their folder."""
        number = "" if self.part is None else r"\.[0-9]{3,}"
        store = re.escape(Path(self.store).name) + number
        own_map = store + r"\.map" if self.map is None else re.escape(Path(self.map).name) + number
        return re.compile(f"{store}|{own_map}" if self.has_map else store)

    def map_name(self, number: int) -> str:
        return self.store_name(number) + ".map" if self.map is None else self.numbered(self.map, number)


@dataclass
class Part:
    """A file with its rows: how many bytes and rows it has, and the map's rows as long as it isn't done."""

    name: str
    file: NewFile
    map_file: NewFile | None
    size: int = 0
    count: int = 0
    rows: dict[str, MapRow] = field(default_factory=dict)

    def write(self, data: bytes) -> None:
        self.file.write(data)
        self.size += len(data)


class StoreParts:
    """The parts of a store. The first is begun before its source is asked, so that a name that is taken is told at once."""

    def __init__(self, target: Target, prefix: str, files: NewFiles):
        self.target, self.prefix = target, prefix
        self.files, self.parts = files, []
        clear_killed(target.first_name(), target.folders(), target.names())
        self.begin()

    def begin(self) -> Part:
        """A new part. A map gets its name before its store: a store that is there has its map."""
        number = len(self.parts) + 1
        map_file = self.files.open(self.target.map_name(number)) if self.target.has_map else None
        name = self.target.store_name(number)
        part = Part(name, self.files.open(name), map_file)
        part.write(MAGICS[self.target.format])
        self.parts.append(part)
        return part

    def end(self, source) -> None:
        """The last part is done: its map is written."""
        part = self.parts[-1]
        if part.map_file is not None:
            head = Map(cluster_text(source.cluster), source.revision, self.prefix, part.rows)
            part.map_file.write(head.written())
        part.rows = {}

    def add(self, source, key: bytes, map_row: MapRow, value: bytes, check: bytes | None) -> None:
        """One more row. A part that would be too long ends before it; a row that is longer than a part has one of its own."""
        part = self.parts[-1]
        row = Row(key, map_row.resource.encode(), value, check)
        data = row_bytes(self.target.format, part.count + 1, row)
        if self.target.part is not None and part.count and part.size + len(data) > self.target.part:
            self.end(source)
            part = self.begin()
            data = row_bytes(self.target.format, 1, row)
        if part.size + len(data) > MOST_STORE:
            raise Refused(f"the store would have more than {MOST_STORE} bytes: --part {HALF} parts it")
        part.write(data)
        part.count += 1
        part.rows[key.decode()] = map_row

    def keep(self, source) -> None:
        """The files get their names."""
        self.end(source)
        self.files.keep()
