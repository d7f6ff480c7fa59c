"""The outside in memory: streams, files, tapes, random sources and links, whose calls fail by their numbers."""

from . import configuration, plugins, store
from .values import printed

MOST_CONFIG = 1_048_576


class Stop(Exception):
    """A step refuses, with a status and what the line says."""

    def __init__(self, status, line):
        super().__init__(status, line)
        self.status, self.line = status, line


class Numbered:
    """An object whose calls fail by their numbers."""

    def __init__(self, name, fails):
        self.name, self.fails, self.made, self.faults = name, fails, 0, 0

    def call(self, serves=True):
        self.made += 1
        if self.made in self.fails or not serves:
            self.fault()

    def fault(self):
        self.faults += 1
        raise Stop(4, f"fault {self.name} {self.faults}")


class Source(Numbered):
    """Gives a byte a call, and at the end nothing."""

    def __init__(self, content, fails):
        super().__init__("input", fails)
        self.content, self.taken = content, 0

    def read_all(self, limit, what):
        if not self.fails:
            # (the same as byte by byte)
            self.taken = min(len(self.content), limit + 1)
        while self.fails and self.taken <= limit:
            self.call()
            if self.taken == len(self.content):
                break
            self.taken += 1
        if self.taken > limit:
            raise Stop(6, f"limit {what} {limit}")
        return self.content


class Sink(Numbered):
    """Takes a byte a call."""

    def __init__(self, name, room, fails):
        super().__init__(name, fails)
        self.room, self.held = room, b""

    def write_all(self, data):
        if not self.fails and len(self.held) + len(data) <= self.room:
            self.held += data
            return
        for at in range(len(data)):
            self.call(len(self.held) < self.room)
            self.held += data[at : at + 1]


class Dice(Numbered):
    """Gives random bytes that were written down."""

    def __init__(self, seat, content, fails):
        super().__init__(f"dice {seat}", fails)
        self.content = content

    def draw(self, size):
        self.call(size <= len(self.content))
        drawn, self.content = self.content[:size], self.content[size:]
        return drawn


class TapeCalls(Numbered):
    """Calls of one kind on a tape, with numbers of their own; the count of faults is the tape's."""

    def __init__(self, tape, fails):
        super().__init__(None, fails)
        self.tape = tape

    def fault(self):
        self.tape.fault()


class Tape(Numbered):
    """A file that is read and written at places; what reads, writes and settles it fails by numbers of their own."""

    def __init__(self, content, reads, writes, settles=()):
        super().__init__("store", reads)
        self.content, self.end, self.torn = content, len(content), False
        self.writes, self.settles = TapeCalls(self, writes), TapeCalls(self, settles)

    def load(self):
        """The store in it: its length is asked for, and then it is read, which is one call where it is short."""
        self.call()
        if len(self.content) > store.MOST_STORE:
            raise Stop(6, f"limit store {store.MOST_STORE}")
        if self.content:
            self.call()
        try:
            return store.read(self.content)
        except store.Broken as no:
            raise Stop(3, f"text {no.code} {no.place}") from None

    def load_new(self):
        """The rows of the store that a migration writes, which are none: its length is asked for, and then it is read."""
        self.name = "target"
        self.call()
        if self.content:
            raise Stop(3, f"text 52 {len(self.content)}")
        self.call()
        return []

    def add(self, form, rows, row):
        """One more row. A write that fails leaves the front half of its bytes; these are cut off, and that is settled, before others follow."""
        data = (b"" if self.end else store.MAGICS[form]) + store.row_bytes(form, len(rows) + 1, row)
        if self.end + len(data) > store.MOST_STORE:
            raise Stop(6, f"limit store {store.MOST_STORE}")
        if self.torn:
            self.writes.call()
            self.content = self.content[: self.end]
            self.settle()
            self.torn = False
        try:
            self.writes.call()
        except Stop:
            self.content += data[: len(data) // 2]
            self.torn = True
            raise
        self.content += data
        self.end = len(self.content)

    def settle(self):
        """All that it holds is on the device."""
        self.settles.call()


class World(Numbered):
    """Files and tapes by their names and random sources by their seats; the first of one name or seat counts."""

    def __init__(self, files, dice, tapes, fails, links=()):
        super().__init__("files", fails)
        self.files, self.dice, self.tapes, self.links, self.asked = files, dice, tapes, links, []

    def load(self, name, limit, what="config"):
        self.call()
        content = next((content for other, content in self.files if other == name), None)
        if content is None:
            raise Stop(3, "text 40 " + printed(name.encode()).decode())
        if len(content) > limit:
            raise Stop(6, f"limit {what} {limit}")
        return content

    def tape(self, name, make=False):
        self.call()
        found = next((tape for other, tape in self.tapes if other == name), None)
        if found is None and make:
            found = Tape(b"", (), ())
            self.tapes.append((name, found))
        if found is None:
            raise Stop(3, "text 40 " + printed(name.encode()).decode())
        return found

    def dice_of(self, seat):
        found = next((dice for other, dice in self.dice if other == seat), None)
        self.call(found is not None)
        return found

    def link_of(self, seat, name, program):
        self.asked.append((seat, name, program))
        found = next((link for other, link in self.links if (other, link.name) == (seat, name)), None)
        self.call(found is not None)
        return found


# ---- what calls load


def load_settings(world, name):
    content = world.load(name, MOST_CONFIG)
    try:
        return configuration.read(content)
    except configuration.Breach as no:
        if no.code == 39:
            raise Stop(6, "limit %s %d" % configuration.LIMITS[no.first]) from None
        raise Stop(3, f"text {no.code} {no.first} {no.second}") from None


def programs_of(options, entries):
    """The programs of the plugins that the entries name, by the bytes of the names."""
    given = dict(value.split("=", 1) for value in options.get("plugin", ()))
    names = plugins.names_in(entries)
    for name in names:
        if name not in given:
            raise Stop(3, f"text 44 {name}")
    return {name: given[name] for name in names}
