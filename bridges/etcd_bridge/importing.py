"""etcd-to-store: the values of an etcd into a new store of kmsrest, with a map for the way back."""

import argparse
from collections.abc import Iterator
from dataclasses import dataclass, field

from reference.store import MOST_STORE, MOST_VALUE
from reference.values import MARK, prefix, split
from reference.words import is_path

from .common_words import add_reading, add_sources, count, places_of, resource
from .errors import Refused, visible
from .keys import KeyValue
from .maps import MapRow, digest
from .new_files import NewFiles
from .opening import Configuration
from .output import tell
from .places import Places
from .programs import run_program, say
from .sources import Source, judge_prefix, source_of
from .store_parts import HALF, StoreParts, Target
from .troubles import Troubles

MOST_PATH = 1024
UNKNOWN = "places that are unknown: --resource PLACE=RESOURCE says what one holds; is --prefix the API server's --etcd-prefix?"


def parsed(arguments: list[str]) -> tuple[argparse.Namespace, Places]:
    parser = argparse.ArgumentParser(
        prog="etcd-to-store",
        allow_abbrev=False,
        description=__doc__,
        epilog="Endpoints and certificates come from etcdctl's environment (ETCDCTL_ENDPOINTS, ETCDCTL_CACERT, ETCDCTL_CERT, "
        "ETCDCTL_KEY); ETCDCTL=PROGRAM uses that program for everything. Status: 0 done; 1 refused, nothing was written; 2 wrong words.",
    )
    parser.add_argument("--store", required=True, metavar="F", help="the store to make")
    parser.add_argument("--map", metavar="M", help="its map (F.map)")
    add_reading(parser)
    add_sources(parser)
    parser.add_argument(
        "--except",
        dest="excepted",
        action="append",
        default=[],
        type=resource,
        metavar="RESOURCE",
        help="not this resource; may be repeated",
    )
    parser.add_argument(
        "--leave-out", action="store_true", help="list what no store can hold and copy the rest, instead of refusing everything"
    )
    parser.add_argument(
        "--heads", action="store_true", help="copy only the prefixes of values, enough for `list` and `judge`; makes no map"
    )
    parser.add_argument(
        "--config",
        metavar="C",
        help="make a store with row checks: open each value with this configuration's keys",
    )
    parser.add_argument("--part", type=count, metavar="BYTES", help="make parts of at most this many bytes: F.001, F.002, ..")
    words = parser.parse_args(arguments)
    if words.heads and words.map:
        parser.error("--heads has no map: what it leaves can't be written back")
    if words.part is not None and words.part > MOST_STORE:
        parser.error(f"--part: a store has at most {MOST_STORE} bytes")
    return words, places_of(parser, words)


def head_of(value: bytes) -> bytes:
    """What tells of a value who wrote it, and nothing of its data."""
    parts = split(value)
    if parts is None:
        return MARK if value.startswith(MARK) else b""
    return prefix((parts[0], parts[1].decode()))


@dataclass
class Import:
    """One import: its words, the places, the configuration if there is one, where from, where to, and what came of it."""

    words: argparse.Namespace
    places: Places
    configuration: Configuration | None
    source: Source
    parts: StoreParts
    troubles: Troubles = field(default_factory=Troubles)
    rows: int = 0
    left_out: list[str] = field(default_factory=list)

    def run(self) -> None:
        for span in self.places.ranges(self.words.only):
            for page in self.source.pages(span, self.words.page):
                for found in page:
                    self.take(found)
        self.troubles.judge()
        if not self.rows and not self.left_out:
            judge_prefix(self.source, self.words.prefix)

    def take(self, found: KeyValue) -> None:
        name = self.places.resource_of(found.key)
        if name is None:
            place = visible(self.places.place_of(found.key))
            why = f"the place {place} is unknown: --resource {place}=RESOURCE says what it holds"
            self.troubles.add(why, found.key, UNKNOWN)
        elif name not in self.words.excepted and (not self.words.only or name in self.words.only):
            why = unfit(found)
            if why is None:
                self.copy(found, name)
            elif self.words.leave_out:
                self.left_out.append(f"{visible(found.key)}: {why}")
            else:
                self.troubles.add(f"{why}; --leave-out copies the rest", found.key)

    def copy(self, found: KeyValue, name: str) -> None:
        check = None
        if self.configuration is not None:
            try:
                check = self.configuration.check_of_value(name, found.key, found.value)
            except Refused as no:
                self.troubles.add(str(no), found.key)
                return
        value = head_of(found.value) if self.words.heads else found.value
        self.parts.add(self.source, found.key, MapRow(name, found.mod, found.create, digest(found.value)), value, check)
        self.rows += 1

    def tell(self) -> None:
        tell(self.lines())
        if not self.rows:
            say("etcd-to-store: keys stand there, and none is of a resource that was asked for")
        if self.words.part is None and self.parts.parts[0].size > HALF and not self.words.heads:
            say(f"etcd-to-store: a rewrite of all rows needs as much room again: --part {HALF} parts them")

    def lines(self) -> Iterator[str]:
        yield from (f"left-out {line}" for line in self.left_out)
        yield f"rows {self.rows}"
        yield f"left-out {len(self.left_out)}"
        yield f"revision {self.source.revision}"
        if self.words.part is not None:
            yield from (f"part {part.name} {part.count} {part.size}" for part in self.parts.parts)


def unfit(found: KeyValue) -> str | None:
    """Why no store can hold what was found, or None."""
    if len(found.key) > MOST_PATH:
        return f"the key has more than {MOST_PATH} bytes"
    if not is_path(found.key):
        return "the key has a space, or a byte that isn't ASCII"
    if len(found.value) > MOST_VALUE:
        return f"the value has more than {MOST_VALUE} bytes"
    return None


def work(arguments: list[str]) -> int:
    words, places = parsed(arguments)
    configuration = Configuration.read(words.config) if words.config else None
    target = Target(words.store, words.map, not words.heads, 1 if configuration is None else 2, words.part)
    files = NewFiles()
    try:
        parts = StoreParts(target, words.prefix, files)
        with source_of(words) as source:
            made = Import(words, places, configuration, source, parts)
            made.run()
            parts.keep(source)
            made.tell()
    finally:
        files.drop()
    return 0


def main(arguments: list[str]) -> int:
    return run_program("etcd-to-store", lambda: work(arguments))
