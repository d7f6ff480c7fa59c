"""Plans done as fleets with writers at work, and plans that are broken by hand.

A round of a plan is a fleet: one worker does the round's reloads, and others put, read, delete and rewrite at all replicas meanwhile.
The next round is the next fleet over the same store, so nothing older is live by then. What must come of it is reckoned here from the
revisions that are told."""
import base64
import json
import random
from dataclasses import dataclass, field
from pathlib import Path

from reference import configuration
from reference.board import Board

RESOURCES = ["a", "b", "c", "a.x", "b.x", "c.x", "a.y", "d.z"]
PATHS_OF_EACH = 3
WRITERS, LINES = (2, 4), (4, 10)
# A provider that no drawn configuration has.
STRANGER = {"aescbc": {"keys": [{"name": "k9", "secret": base64.b64encode(bytes(32)).decode()}]}}


@dataclass(frozen=True)
class Round:
    """What the replicas have before a round, what it brings, and whether a rewrite begins it."""

    before: str
    brings: str
    rewrites: bool = False


ROUNDS = (Round("from", "wide"), Round("wide", "turned"), Round("turned", "to", rewrites=True))


@dataclass
class Worker:
    """A worker of a fleet: its name, its replica and its lines."""

    name: str
    replica: int
    lines: list[str] = field(default_factory=list)


class NotSo(Exception):
    """What isn't as it must be."""


def expect(holds: bool, what: str) -> None:
    if not holds:
        raise NotSo(what)


# ---- what workers do


def drawn_data(draw: random.Random) -> str:
    return base64.b64encode(draw.randbytes(9).hex().encode()).decode()


def drawn_object(draw: random.Random) -> tuple[str, str]:
    """A resource, and a path of it, at which others write too."""
    resource = draw.choice(RESOURCES)
    return resource, f"/{resource}/{draw.randrange(PATHS_OF_EACH)}"


def written_line(draw: random.Random) -> str:
    """What a writer does at its replica."""
    kind = draw.choices(("put", "get", "delete", "rewrite", "refresh"), (6, 4, 2, 1, 1))[0]
    if kind in ("rewrite", "refresh"):
        return kind
    resource, path = drawn_object(draw)
    return f"put {resource} {path} {drawn_data(draw)}" if kind == "put" else f"{kind} {path}"


def mover(draw: random.Random, it: Round, replicas: int, joins: int | None) -> Worker:
    """Who does the round: each replica in any order, one of them twice, and objects put between."""
    order = draw.sample(range(replicas), replicas)
    found = Worker("mover", next(number for number in order if number != joins or replicas == 1))
    found.lines += ["rewrite"] if it.rewrites else []
    for number in [*order, order[0]]:
        is_new = number == joins and not any(line.startswith("join") for line in found.lines)
        found.lines.append(f"{'join' if is_new else 'reload'} r{number} {it.brings}")
        found.lines += [written_line(draw) for _ in range(draw.randrange(3))]
    return found


def workers_of(draw: random.Random, it: Round, replicas: int, joins: int | None) -> list[Worker]:
    """The mover, and writers at replicas that are in from the start. Before the rewrite each may bring the round's configuration too."""
    found = [mover(draw, it, replicas, joins)]
    places = [number for number in range(replicas) if number != joins]
    for number in range(draw.randint(*WRITERS)):
        writer = Worker(f"w{number}", draw.choice(places))
        writer.lines += [written_line(draw) for _ in range(draw.randint(*LINES))]
        if not it.rewrites and draw.random() < 0.3:
            writer.lines.insert(draw.randrange(len(writer.lines)), f"reload r{draw.choice(places)} {it.brings}")
        found.append(writer)
    return found


def fleet_text(replicas: list[str], workers: list[Worker]) -> str:
    lines = ["fleet 1", *(f"replica r{number} {has}" for number, has in enumerate(replicas))]
    for worker in workers:
        lines += [f"worker {worker.name} r{worker.replica}", *worker.lines]
    return "\n".join(lines) + "\n"


# ---- what comes of it


@dataclass
class Fleet:
    """What a fleet printed: its status, the journal's events with their workers, and the replies in the order of the lines."""

    status: int
    events: list[list[str]]
    replies: list[list[str]]

    @classmethod
    def read(cls, workers: list[Worker], status: int, output: str, errors: str) -> "Fleet":
        asked = [(worker.name, str(number)) for worker in workers for number in range(1, len(worker.lines) + 1)]
        journal, _, replies = output.partition("replies\n")
        told = [line.split(" ") for line in replies.splitlines()[:-1]]
        expect(not errors and [tuple(words[:2]) for words in told] == asked, f"status {status}, {errors}\n{output}")
        return cls(status, [line.split(" ")[1:] for line in journal.splitlines()[1:]], [words[2:] for words in told])

    def writers_within(self) -> int:
        """How many events of writers stand between the mover's first reload and its last one."""
        moves = [at for at, (who, what, *_rest) in enumerate(self.events) if who == "mover" and what in ("reload", "join")]
        return sum(who != "mover" for who, *_rest in self.events[moves[0] : moves[-1]])


class Written:
    """What was put and deleted at each path, by the rows' revisions; a rewrite leaves the data."""

    def __init__(self):
        self.rows: dict[str, dict[int, str | None]] = {}

    def note(self, line: str, reply: list[str]) -> None:
        words = line.split(" ")
        if words[0] == "put":
            self.rows.setdefault(words[2], {})[int(reply[1])] = words[3]
        elif words[0] == "delete" and reply[0] == "delete":
            self.rows.setdefault(words[1], {})[int(reply[1])] = None

    def data(self, path: str, revision: int | None = None) -> str | None:
        """What stands at a path up to a revision, or at the end."""
        rows = [at for at in self.rows.get(path, {}) if revision is None or at <= revision]
        return self.rows[path][max(rows)] if rows else None

    def may_be_absent(self, path: str, before: int) -> bool:
        """Whether a call that began behind this revision may have found nothing."""
        return self.data(path, before) is None or any(at > before and data is None for at, data in self.rows[path].items())


WELL = {"put": ("put",), "delete": ("delete", "absent"), "get": ("get", "absent"), "rewrite": ("rewrite",), "refresh": ("refresh",),
        "reload": ("reload",), "join": ("join",)}


def judge(workers: list[Worker], found: Fleet, written: Written) -> None:
    """No reload or join is refused, each read is of what was last written, and no rewrite leaves anything."""
    before = max((at for rows in written.rows.values() for at in rows), default=0)
    lines = [line for worker in workers for line in worker.lines]
    for line, reply in zip(lines, found.replies):
        expect(reply[0] in WELL[line.split(" ")[0]] and (reply[0] != "rewrite" or reply[4] == "0"), f"{line}: {' '.join(reply)}")
        written.note(line, reply)
    for line, reply in zip(lines, found.replies):
        if reply[0] == "get":
            expect(reply[2] == written.data(line.split(" ")[1], int(reply[1])), f"{line}: {' '.join(reply)}")
        elif reply[0] == "absent":
            expect(written.may_be_absent(line.split(" ")[1], before), f"{line}: there was something")
    is_less = any(reply[0] == "absent" or reply[:2] == ["refresh", "moved"] for reply in found.replies)
    expect(found.status == int(is_less), f"status {found.status}")


class Desk:
    """A folder with the four configurations of a plan and a store, and the program that is called there."""

    def __init__(self, home: Path, call, plugin: Path, settings: dict[str, str], replicas: int):
        self.home, self.call, self.replicas = home, call, replicas
        for name, text in settings.items():
            (home / name).write_text(text)
        named = [name for name in "pq" if any(f'"name":"{name}"' in text.replace('": "', '":"') for text in settings.values())]
        self.plugins = [word for name in named for word in ("--plugin", f"{name}={plugin}")]

    def fleet(self, replicas: list[str], workers: list[Worker], store: str = "store") -> Fleet:
        (self.home / "fleet").write_text(fleet_text(replicas, workers))
        return Fleet.read(workers, *self.call(self.home, "fleet", "--file", "fleet", "--store", store, *self.plugins))

    def does_plan(self, draw: random.Random) -> int:
        """All rounds with writers at work, and at the end all is read by the target alone; how many events of writers came within."""
        written, within = Written(), 0
        for it in ROUNDS:
            joins = draw.randrange(1, self.replicas) if self.replicas > 1 and draw.random() < 0.3 else None
            workers = workers_of(draw, it, self.replicas, joins)
            has = ["-" if number == joins else it.before for number in range(self.replicas)]
            found = self.fleet(has, workers)
            judge(workers, found, written)
            within += found.writers_within()
        self.reads_all(written)
        return within

    def reads_all(self, written: Written) -> None:
        """The target has no stale value, and each object is what was last written there."""
        paths = sorted(written.rows)
        reader = Worker("reader", 0, ["rewrite", *(f"get {path}" for path in paths)])
        found = self.fleet(["to"], [reader])
        live = sum(written.data(path) is not None for path in paths)
        expect(found.replies[0] == ["rewrite", "0", str(live), "0", "0"], f"at the end: {' '.join(found.replies[0])}, of {live} objects")
        for path, reply in zip(paths, found.replies[1:]):
            data = written.data(path)
            expect(reply == ["absent"] if data is None else (reply[0], reply[2]) == ("get", data), f"at the end {path}: {' '.join(reply)}")


# ---- plans that are broken by hand


def resource_of(pattern: str) -> str:
    """A resource that a pattern matches."""
    kind, _, group = pattern.partition(".")
    return {"*.*": "d.z", "*.": "a"}.get(pattern, f"a.{group}" if kind == "*" else pattern)


def without_its_writer(text: str) -> str:
    """A configuration whose first entry has lost the provider that it writes by."""
    tree = json.loads(text)
    entry = tree["resources"][0]
    entry["providers"] = entry["providers"][1:] or [STRANGER]
    return json.dumps(tree)


def broken_plans(replicas: int) -> dict[str, list[str]]:
    """Each kind's moves."""
    all_to = lambda name: [f"reload r{number} {name}" for number in range(replicas)]
    found = {
        "without its middle round": [*all_to("wide"), "rewrite", *all_to("to")],
        "with a target that drops a stored provider": [*all_to("wide"), *all_to("turned"), "rewrite", *all_to("short")],
    }
    # (one replica alone has nobody who couldn't read)
    if replicas > 1:
        found["turned before all read"] = ["reload r0 wide", "reload r0 turned"]
    return found


def verdicts(entries: dict[str, list], replicas: int, moves: list[str]) -> list[str]:
    """What each reload is answered, by reference/: an object of each resource is stored before them."""
    board = Board(1 << 20)
    for number in range(replicas):
        board.add(number, entries["from"])
    has, told = ["from"] * replicas, []
    board.needs = needs(entries["from"])
    for move in moves:
        if move == "rewrite":
            board.needs = needs(entries[has[0]])
            continue
        number, name = int(move.split(" ")[1][1:]), move.split(" ")[2]
        told.append(board.verdict(number, entries[name]))
        if told[-1] == "pass":
            board.add(number, entries[name])
            has[number] = name
    return told


def needs(entries: list) -> dict[str, tuple]:
    return {f"/{resource}": (resource, configuration.list_for(entries, resource)[0]) for resource in RESOURCES}


def try_broken(desk: Desk, entries: dict[str, list]) -> dict[str, bool]:
    """Whether each kind of broken plan is refused, in just the reloads in which reference/ refuses it."""
    short = without_its_writer((desk.home / "to").read_text())
    (desk.home / "short").write_text(short)
    entries = {**entries, "short": configuration.read(short.encode())}
    puts, refused = [f"put {resource} /{resource} {drawn_data(random.Random(0))}" for resource in RESOURCES], {}
    for number, (what, moves) in enumerate(broken_plans(desk.replicas).items()):
        worker = Worker("mover", 0, [*puts, *moves])
        found = desk.fleet(["from"] * desk.replicas, [worker], f"broken{number}")
        replies = [reply for line, reply in zip(worker.lines, found.replies) if line.startswith("reload")]
        told = ["pass" if reply[0] == "reload" else " ".join(reply).removeprefix("refused ") for reply in replies]
        wanted = verdicts(entries, desk.replicas, moves)
        expect(told == wanted, f"{what}: {told}, and not {wanted}")
        refused[what] = any(verdict != "pass" for verdict in wanted)
    return refused
