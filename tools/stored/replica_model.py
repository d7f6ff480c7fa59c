"""The calls of replicas over a core, by the tables of events and of calls as they are written here: a plain list of rows, a
board of tools/stored/stored judgements, and for a sealed value what sealed it and its data. Of its bytes only their number is told.
"""


from judgements import Board
from reference import configuration, values, words

OLD_MAGIC = b"KRSTORE1"

# What is known of stored values, by their bytes.
KNOWN = {}


class Form(Exception):
    """A line isn't of the form, or asks for what a call doesn't allow."""


class Cut(Exception):
    """A call is cut short; its text is what is printed."""


def number_of(text):
    if not text.isdecimal():
        raise Form
    return int(text)


def numbers(word):
    return set() if word == "-" else {number_of(part) for part in word.split(",")}


def text_of(word):
    return "" if word == "-" else word


def data_of(word):
    try:
        return bytes.fromhex(text_of(word))
    except ValueError:
        raise Form from None


def need_path(path):
    if not path or not all("!" <= letter <= "~" for letter in path):
        raise Form


# ---- values


class Seed:
    """A plugin's seed with the id of the key that it was wrapped with; of a value of source type 0 its key."""

    def __init__(self, link, key_id, data, kind=1):
        self.link, self.key_id, self.data, self.kind = link, key_id, data, kind

    def __eq__(self, other):
        return other is not None and vars(self) == vars(other)

    def object_size(self, body):
        """Data, key id, source and, of a link in memory, an annotation of a salt, then the type where it isn't 0."""
        source, annotation = (40, 0) if self.link == "keys" else (32, 24)
        size = 1 + (1 if body < 128 else 2) + body + 2 + len(self.key_id) + 2 + source + annotation
        return size + (2 if self.kind else 0)


class Sealed:
    """What a provider made of data."""

    def __init__(self, who, plain, seed=None):
        self.who, self.plain, self.seed = who, plain, seed

    def size(self):
        kind, size = self.who[0], len(self.plain)
        if kind == "identity":
            return size
        if kind == "aescbc":
            body = 16 + size + 16 - size % 16
        elif kind == "aesgcm":
            body = 12 + size + 16
        else:
            body = self.seed.object_size((32 if self.seed.kind else 0) + 12 + size + 16)
        return len(values.prefix(self.who)) + body

    def is_read_by(self, who):
        return who[:2] == self.who[:2]


class Raw:
    """Bytes with which the store began; what isn't identity's isn't readable."""

    def __init__(self, stored):
        self.plain, self.stored, self.who, self.seed = stored, stored, ("identity", ""), None

    def size(self):
        return len(self.stored)

    def is_read_by(self, who):
        if who[0] == "identity":
            return not self.stored.startswith(values.MARK)
        return self.stored.startswith(values.prefix(who))


# ---- the bench


class Publication:
    def __init__(self, entries, seed):
        self.entries, self.seed = entries, seed

    def list_for(self, resource):
        return configuration.list_for(self.entries, resource)


class Bench:
    """A link and a random source, each of which numbers its calls."""

    def __init__(self, link, words):
        key, fails, drawn, dice_fails = words
        self.link, (self.key_id, _, health) = link, key.partition("/")
        self.health = health or "ok"
        if link == "keys" and key not in ("k1", "k2"):
            raise Form
        self.fails, self.calls, self.faults = numbers(fails), 0, 0
        self.left, self.at = number_of(drawn), 0
        self.dice_fails, self.draws, self.dice_faults = numbers(dice_fails), 0, 0
        self.opened = []

    def call(self):
        self.calls += 1
        if self.calls in self.fails:
            self.faults += 1
            raise Cut("plugin p")

    def draw(self, size):
        self.draws += 1
        if self.draws in self.dice_fails or size > self.left:
            self.dice_faults += 1
            raise Cut("dice")
        drawn = bytes((self.at + place) % 256 for place in range(size))
        self.at, self.left = self.at + size, self.left - size
        return drawn

    def status(self):
        self.call()
        if self.health != "ok":
            raise Cut(f"unhealthy p {self.health}")
        return self.key_id

    def publish(self, entries):
        """Status, draw and wrap, where the plugin is named."""
        if not names_plugin(entries):
            return Publication(entries, None)
        key_id = self.status()
        data = self.draw(32)
        self.call()
        return Publication(entries, Seed(self.link, key_id, data))

    def seal(self, published, resource, plain):
        who = published.list_for(resource)[0]
        if who[0] == "identity":
            if plain.startswith(values.MARK):
                raise Cut("refused 13")
        else:
            self.draw({"aescbc": 16, "aesgcm": 12, "kms": 44}[who[0]])
        return Sealed(who, plain, published.seed if who[0] == "kms" else None)

    def unseal(self, published, row):
        """The data, and whether they are stale; an unwrap only of what is neither published nor unwrapped before."""
        providers = published.list_for(row.resource)
        place = next((place for place, who in enumerate(providers) if row.value.is_read_by(who)), None)
        if place is None:
            raise Cut("refused 12")
        if isinstance(row.value, Raw) and providers[place][0] != "identity":
            raise Cut("refused 1")
        seed, stale = row.value.seed, place > 0
        if seed is not None:
            if seed != Seed(seed.link, published.seed.key_id, published.seed.data, seed.kind) and seed not in self.opened:
                self.call()
                self.opened.append(seed)
            stale = stale or seed.key_id != published.seed.key_id or seed.kind == 0
        return row.value.plain, stale

    def end(self):
        return f"faults link {self.faults} dice {self.dice_faults}"


def names_plugin(entries):
    found = {who[1] for _, providers in entries for who in providers if who[0] == "kms"}
    if found - {"p"}:
        raise Form
    return bool(found)


# ---- the store


class Row:
    def __init__(self, revision, path, resource=None, value=None):
        self.revision, self.path, self.resource, self.value = revision, path, resource, value


class Failed(Exception):
    """The tape failed."""


class Full(Exception):
    """The file would have so many bytes."""


class Store:
    def __init__(self, words):
        content, limit, fails = words
        self.content = b"" if content == "-" else bytes.fromhex(content)
        self.format = 1 if self.content.startswith(OLD_MAGIC) else 2
        self.length, self.limit, self.fails = len(self.content), number_of(limit), numbers(fails)
        self.rows, self.writes, self.faults, self.torn = [], 0, 0, False
        self.read(self.content[8:])

    def read(self, rest):
        """Puts of the first format: a kind, a revision, a path, a resource and a value."""
        while rest:
            revision = int.from_bytes(rest[1:9], "big")
            path, rest = counted(rest[9:], 2)
            resource, rest = counted(rest, 2)
            stored, rest = counted(rest, 4)
            self.rows.append(Row(revision, path.decode(), resource.decode(), KNOWN.get(stored) or Raw(stored)))

    def size(self, row):
        size = 1 + 8 + 2 + len(row.path)
        if row.value is not None:
            size += 2 + len(row.resource) + (8 if self.format == 2 else 0) + 4 + row.value.size()
        return size

    def call(self):
        self.writes += 1
        if self.writes in self.fails:
            self.faults += 1
            raise Failed

    def append(self, path, resource=None, value=None):
        row = Row(len(self.rows) + 1, path, resource, value)
        needed = (self.length or 8) + self.size(row)
        if needed > self.limit:
            raise Full(needed)
        if self.torn:
            self.call()
            self.torn = False
        try:
            self.call()
        except Failed:
            self.torn = True
            raise
        self.rows.append(row)
        self.length = needed
        return row

    def last(self, path):
        return next((row for row in reversed(self.rows) if row.path == path), None)

    def live(self, path):
        row = self.last(path)
        return row if row is not None and row.value is not None else None

    def after(self, path):
        paths = sorted({row.path for row in self.rows if row.path > path})
        return next((row for row in map(self.live, paths) if row is not None), None)

    def lines(self):
        for row in self.rows:
            told = "deleted" if row.value is None else f"{row.resource} {row.value.size()}"
            yield f"row {row.revision} {row.path} {told}"
        yield f"faults {self.faults} {'torn' if self.torn else 'whole'}"


def counted(data, width):
    size = int.from_bytes(data[:width], "big")
    return data[width : width + size], data[width + size :]


# ---- the core


class Core:
    """The events, each of which answers what the call goes on with."""

    def __init__(self, store, replicas):
        self.store, self.board, self.current = store, Board(None), [None] * len(replicas)
        self.published = []
        for path in sorted({row.path for row in store.rows}):
            row = store.live(path)
            if row is not None:
                who = next((who for who in replicas[0].list_for(row.resource) if row.value.is_read_by(who)), None)
                if who is None:
                    raise Form
                self.board.needs[path] = row.resource, who
        for replica, published in enumerate(replicas):
            if published is not None:
                if self.board.verdict(replica, published.entries) != "pass":
                    raise Form
                self.take_up(replica, published)

    def take_up(self, replica, published):
        self.board.add(replica, published.entries)
        self.published.append(published)
        self.current[replica] = len(self.published) - 1
        return self.current[replica]

    def adopt(self, replica):
        number = self.current[replica]
        if number is not None:
            self.board.generations[number].holders += 1
        return number

    def let_go(self, number):
        self.board.generations[number].holders -= 1

    def write(self, path, resource=None, value=None):
        try:
            row = self.store.append(path, resource, value)
        except Failed:
            raise Cut("store") from None
        except Full as full:
            raise Cut(f"full {full.args[0]}") from None
        if value is None:
            self.board.needs.pop(path)
        else:
            self.board.needs[path] = resource, value.who
        return row.revision

    def delete(self, path):
        return None if self.store.live(path) is None else self.write(path)

    def replace(self, row, value):
        """Whether the row was still the path's last one."""
        if self.store.last(row.path) is not row:
            return False
        self.write(row.path, row.resource, value)
        return True

    def judged(self, replica, published):
        verdict = self.board.verdict(replica, published.entries)
        return f"generation {self.take_up(replica, published)}" if verdict == "pass" else f"verdict {verdict}"

    def reload(self, replica, published, expected):
        current = self.current[replica]
        if current is None:
            raise Cut("gone")
        if expected not in (None, current):
            return f"moved {current}"
        return self.judged(replica, published)

    def join(self, replica, published):
        current = self.current[replica]
        return self.judged(replica, published) if current is None else f"present {current}"

    def leave(self, replica):
        current, self.current[replica] = self.current[replica], None
        if current is None:
            return "absent"
        self.board.leave(replica)
        return f"departed {current}"


# ---- the calls


ARGUMENTS = {"read": 2, "write": 4, "delete": 1, "leave": 1, "reload": 2, "join": 2, "refresh": 1, "step": 2, "drive": 2}


class Desk:
    """A seat of the core with its bench. Before each of its events what was planned may happen."""

    def __init__(self, named, core, bench, left, reloads):
        self.named, self.core, self.bench, self.left, self.reloads = named, core, bench, left, reloads
        self.ended, self.before = False, lambda: None

    def event(self, event, *rest):
        self.before()
        if self.left == 0:
            raise Cut("spent")
        self.left -= 1
        return event(*rest)

    def holding(self, replica, does):
        """Adopts the replica's generation, does this by it, and lets it go."""
        number = self.event(self.core.adopt, replica)
        if number is None:
            raise Cut("gone")
        try:
            done = does(number, self.core.published[number])
        except Cut as cut:
            done = cut
        self.event(self.core.let_go, number)
        if isinstance(done, Cut):
            raise done
        return done

    def read(self, replica, path):
        need_path(path)

        def does(_, published):
            row = self.event(self.core.store.live, path)
            if row is None:
                return "absent"
            plain, stale = self.bench.unseal(published, row)
            return f"value {row.revision} {plain.hex() or '-'} {'stale' if stale else 'fresh'}"

        return self.holding(replica, does)

    def write(self, replica, path, resource, plain):
        need_path(path)
        if not words.is_resource(resource.encode()):
            raise Form

        def does(_, published):
            value = self.bench.seal(published, resource, plain)
            return f"written {self.event(self.core.write, path, resource, value)}"

        return self.holding(replica, does)

    def delete(self, path):
        need_path(path)
        revision = self.event(self.core.delete, path)
        return "absent" if revision is None else f"deleted {revision}"

    def leave(self, replica):
        return self.event(self.core.leave, replica)

    def bring(self):
        if self.reloads == 0:
            raise Form
        self.reloads -= 1

    def reload(self, replica, entries):
        names_plugin(entries)
        self.bring()
        return self.event(self.core.reload, replica, self.bench.publish(entries), None)

    def join(self, replica, entries):
        names_plugin(entries)
        self.bring()
        return self.event(self.core.join, replica, self.bench.publish(entries))

    def refresh(self, replica):
        self.bring()

        def does(number, published):
            if published.seed is None or self.bench.status() == published.seed.key_id:
                return f"unchanged {number}"
            return self.event(self.core.reload, replica, self.bench.publish(published.entries), number)

        return self.holding(replica, does)

    def step(self, replica, above):
        if above:
            need_path(above)

        def does(_, published):
            row = self.event(self.core.store.after, above)
            if row is None:
                return "end", None
            try:
                plain, stale = self.bench.unseal(published, row)
                if not stale:
                    return "fresh", row.path
                value = self.bench.seal(published, row.resource, plain)
            except Cut as cut:
                if cut.args[0].startswith("refused"):
                    return "left", row.path
                raise
            return "rewritten" if self.event(self.core.replace, row, value) else "changed", row.path

        return self.holding(replica, does)

    def drive(self, replica, above):
        counts, last, why = dict.fromkeys(("rewritten", "fresh", "changed", "left"), 0), above, None
        try:
            while True:
                did, path = self.step(replica, last)
                if did == "end":
                    break
                counts[did] += 1
                last = path
        except Cut as cut:
            why = cut
        told = " ".join([f"{did} {count}" for did, count in counts.items()] + ["last", last or "-"])
        if why is not None:
            raise Cut(f"{told} {why.args[0]}")
        return told

    def called(self, key, rest):
        """The call of a line with its arguments; of the last word all that is left."""
        if key not in ARGUMENTS:
            raise Form
        given = rest.split(" ", ARGUMENTS[key] - 1)
        if len(given) < ARGUMENTS[key]:
            raise Form
        if key == "delete":
            return self.delete, given
        replica, rest = number_of(given[0]), given[1:]
        if key in ("read", "step", "drive"):
            rest = [text_of(rest[0])]
        elif key == "write":
            rest[2] = data_of(rest[2])
        elif key in ("reload", "join"):
            if rest[0] not in self.named:
                raise Form
            rest = [self.named[rest[0]]]
        return getattr(self, key), (replica, *rest)

    def line(self, line):
        """What the call of a line answers, or `line`."""
        key, _, rest = line.partition(" ")
        try:
            call, given = self.called(key, rest)
            if self.ended or key != "delete" and given[0] >= 2:
                raise Form
            done = call(*given)
            return done if isinstance(done, str) else " ".join(part for part in done if part)
        except Form:
            return "line"
        except Cut as cut:
            self.ended = key not in ("delete", "leave", "reload", "join") and cut.args[0].endswith("spent")
            return cut.args[0]


class Plan:
    """A rival's call before an event of another desk."""

    def __init__(self, rival):
        self.rival, self.number, self.call, self.said = rival, None, None, []

    def before(self):
        if self.number is not None:
            self.number -= 1
            if self.number <= 0:
                call, self.number = self.call, None
                self.said.append(self.rival.line(call))


