"""Fleets in which at most one worker has lines, so that what they write is the same at each run."""

import base64
import functools

from . import configuration, plugins, store
from .board import Board
from .outside import Stop, load_settings, programs_of
from .values import Refused, check_of, printed, reader_of, seal, unseal

MOST_FLEET = 67_108_864
MOST_JOURNAL = 4_000_000
LIMITS = {"Replicas": "replicas 16", "Workers": "workers 64", "TooLarge": "data 2097152"}


# ---- what a fleet works by


class Worker:
    def __init__(self, name, replica):
        self.name, self.replica, self.lines = name, replica, []


def read(data):
    """The replicas and the workers of a fleet file that is in form."""
    replicas, workers = [], []
    lines = data.decode().split("\n")
    for number, line in enumerate(lines, 1):
        words = (line.removesuffix("\r") if number < len(lines) else line).split(" ")
        words = [word for word in words if word]
        if not words or words[0].startswith("#") or words[0] == "fleet":
            continue
        if words[0] == "replica":
            replicas.append((words[1], words[2]))
        elif words[0] == "worker":
            workers.append(Worker(words[1], [own for own, _ in replicas].index(words[2])))
        else:
            workers[-1].lines.append(words)
    if sum(bool(worker.lines) for worker in workers) > 1:
        raise NotImplementedError("two workers with lines, which come in any order")
    return replicas, workers


def load(world, name):
    """The fleet in the file; what is no fleet is said by the reader of fleet files that stands beside this."""
    import fleet_files

    data = world.load(name, MOST_FLEET, "script")
    said = fleet_files.read(data)
    if said.startswith("Breach"):
        raise Stop(3, f"text 47 {said.split()[1]}")
    if said in LIMITS:
        raise Stop(6, f"limit {LIMITS[said]}")
    return read(data)


def files_named(replicas, workers):
    """The configuration files, each once, where it is named first."""
    named = [file for _, file in replicas if file != "-"]
    named += [words[2] for worker in workers for words in worker.lines if words[0] in ("reload", "join")]
    return list(dict.fromkeys(named))


def budget(workers, rows):
    lines = [words for worker in workers for words in worker.lines]
    paths = len(store.live(rows)) + sum(words[0] == "put" for words in lines)
    each = {"put": 3, "get": 3, "refresh": 3, "rewrite": 4 * paths + 3}
    return sum(each.get(words[0], 1) for words in lines)


# ---- what a worker has of the world


class Kept:
    """A link whose unwrapped sources are kept."""

    def __init__(self, link):
        self.link, self.found = link, {}

    def unwrap(self, key_id, annotations, source):
        key = key_id, tuple(sorted(annotations.items())), source
        if key not in self.found:
            self.found[key] = self.link.unwrap(key_id, annotations, source)
        return self.found[key]


class Outfit:
    def __init__(self, world, seat, programs):
        self.dice = world.dice_of(seat)
        self.links = {name: world.link_of(seat, name, program) for name, program in programs.items()}
        self.kept = {name: Kept(link) for name, link in self.links.items()}

    def publish(self, entries):
        return plugins.publish({name: self.links[name] for name in plugins.names_in(entries)}, self.dice.draw)


# ---- the core


class Core:
    def __init__(self, tape, form, rows, names, opening):
        """`opening` has for each replica its entries and seeds, or None."""
        self.tape, self.form, self.rows, self.names = tape, form, rows, names
        self.current, self.journal, self.changes = {}, [], []
        self.board, self.seeds = Board(len(names)), []
        self.check_rows(opening[0][0])
        for number, found in enumerate(opening):
            if found is not None:
                verdict = self.board.verdict(number, found[0])
                if verdict != "pass":
                    raise Stop(3, f"text 49 {number} {verdict}")
                self.add(number, *found)

    def check_rows(self, first):
        """What is stored has a provider in the first replica's configuration, of the same secret."""
        live = sorted(store.live(self.rows).items())
        readers = {path: reader_of(configuration.list_for(first, row.resource.decode()), row.value) for path, (_, row) in live}
        for path, reader in readers.items():
            if reader is None:
                raise Stop(3, f"text 48 {path.decode()}")
        for path, (_, row) in live:
            if row.check is not None and row.check != check_of(readers[path]):
                raise Stop(3, f"text 51 {path.decode()}")
            self.board.needs[path.decode()] = (row.resource.decode(), readers[path])

    def add(self, replica, entries, seeds):
        self.board.add(replica, entries)
        self.seeds.append(seeds)
        self.current[replica] = len(self.board.generations) - 1

    def live(self, path):
        """The live row of a path with its revision."""
        return store.live(self.rows).get(path.encode())

    def next_after(self, path):
        found = [(other, it) for other, it in store.live(self.rows).items() if other > path.encode()]
        return min(found)[1] if found else None


# ---- a worker at the core


class Serving:
    """The lines of a worker, one after the other. Each gives its reply."""

    def __init__(self, core, worker, outfit, files):
        self.core, self.worker, self.outfit, self.files, self.held = core, worker, outfit, files, None

    def line(self, *words):
        self.core.journal.append(" ".join([str(len(self.core.journal)), self.worker.name, *map(str, words)]))

    def reply(self, words):
        """The reply of a line; what the outside does ends it."""
        try:
            return getattr(self, words[0])(*words[1:])
        except Refused as no:
            ended = f"refused {no.number} {no.text().split()[1]}"
        except plugins.Unhealthy as no:
            ended = f"unhealthy {no.name} {no.field} {printed(no.text.encode()).decode()}"
        except Stop as no:
            # (without the count)
            ended = "full" if no.status == 6 else no.line.rsplit(" ", 1)[0]
        if self.held is not None:
            self.let_go()
        return ended

    def adopt(self):
        core, replica = self.core, self.worker.replica
        if core.current.get(replica) is None:
            self.line("gone", "adopt", core.names[replica])
            return False
        self.held = core.current[replica]
        core.board.generations[self.held].holders += 1
        self.line("adopt", core.names[replica], self.held)
        return True

    def let_go(self):
        self.core.board.generations[self.held].holders -= 1
        self.held = None
        self.line("letgo")

    def providers(self, resource):
        return configuration.list_for(self.core.board.generations[self.held].entries, resource)

    def sealed(self, resource, path, data):
        """The row that the writer makes of the data, and the writer."""
        writer = self.providers(resource)[0]
        by_plugin = functools.partial(plugins.seal, self.core.seeds[self.held])
        value = seal(writer, path.encode(), data, self.outfit.dice.draw, by_plugin)
        return store.Row(path.encode(), resource.encode(), value, check_of(writer)), writer

    def read(self, row):
        by_plugin = functools.partial(plugins.unseal, self.core.seeds[self.held], self.outfit.kept)
        return unseal(self.providers(row.resource.decode()), row.path, row.value, by_plugin)

    def append(self, kind, path, row):
        """The revision of one more row."""
        core = self.core
        try:
            core.tape.add(core.form, core.rows, row)
        except Stop as no:
            self.line("full" if no.status == 6 else "failed", kind, path)
            raise
        core.rows.append(row)
        return len(core.rows)

    # ---- the lines

    def put(self, resource, path, text):
        if not self.adopt():
            return "gone"
        data = b"" if text == "-" else base64.b64decode(text)
        row, writer = self.sealed(resource, path, data)
        revision = self.append("put", path, row)
        self.core.changes.append(("put", path, revision, (resource, data)))
        self.core.board.needs[path] = (resource, writer)
        self.line("put", path, revision)
        self.let_go()
        return f"put {revision}"

    def get(self, path):
        if not self.adopt():
            return "gone"
        found = self.core.live(path)
        self.line("fetch", path, found[0] if found else 0)
        data = self.read(found[1])[0] if found else None
        self.let_go()
        return f"get {found[0]} {base64.b64encode(data).decode() or '-'}" if found else "absent"

    def delete(self, path):
        if not self.core.live(path):
            self.line("delete", path, 0)
            return "absent"
        revision = self.append("delete", path, store.Row(path.encode()))
        self.core.changes.append(("delete", path, revision, None))
        del self.core.board.needs[path]
        self.line("delete", path, revision)
        return f"delete {revision}"

    def rewrite(self):
        counts, above = {"rewritten": 0, "fresh": 0, "left": 0}, ""
        while self.adopt():
            found = self.core.next_after(above)
            self.line("after", above or "-", found[0] if found else 0)
            if found is None:
                self.let_go()
                return "rewrite {rewritten} {fresh} 0 {left}".format(**counts)
            counts[self.renew(*found)] += 1
            self.let_go()
            above = found[1].path.decode()
        return "gone"

    def renew(self, revision, row):
        """What becomes of the found row."""
        path, resource = row.path.decode(), row.resource.decode()
        try:
            data, is_stale = self.read(row)
            if not is_stale:
                return "fresh"
            new, writer = self.sealed(resource, path, data)
        except Refused:
            return "left"
        number = self.append("replace", path, new)
        self.core.changes.append(("replace", path, number, None))
        self.core.board.needs[path] = (resource, writer)
        self.line("replace", path, revision, number)
        return "rewritten"

    def bring(self, word, number, entries, seeds):
        """The generation that the replica has now, or nothing and why not."""
        core, target = self.core, self.core.names[number]
        verdict = core.board.verdict(number, entries)
        if verdict != "pass":
            self.line("refused", target, verdict)
            return None, f"refused {verdict}"
        core.add(number, entries, seeds)
        self.line(word, target, core.current[number])
        return core.current[number], None

    def reload(self, target, file):
        number, entries = self.core.names.index(target), self.files[file]
        seeds = self.outfit.publish(entries)
        if self.core.current.get(number) is None:
            self.line("gone", "reload", target)
            return "gone"
        generation, refused = self.bring("reload", number, entries, seeds)
        return refused or f"reload {generation}"

    def join(self, target, file):
        number, entries = self.core.names.index(target), self.files[file]
        seeds = self.outfit.publish(entries)
        present = self.core.current.get(number)
        if present is not None:
            self.line("present", target, present)
            return f"present {present}"
        generation, refused = self.bring("join", number, entries, seeds)
        return refused or f"join {generation}"

    def leave(self, target):
        number = self.core.names.index(target)
        present = self.core.current.pop(number, None)
        if present is None:
            self.line("gone", "leave", target)
            return "gone"
        self.core.board.leave(number)
        self.line("leave", target, present)
        return f"leave {present}"

    def refresh(self):
        if not self.adopt():
            return "gone"
        entries = self.core.board.generations[self.held].entries
        if not self.has_changed():
            self.let_go()
            return "refresh unchanged"
        generation, refused = self.bring("reload", self.worker.replica, entries, self.outfit.publish(entries))
        self.let_go()
        return refused or f"refresh {generation}"

    def has_changed(self):
        """Whether a plugin has another key than its seed was wrapped with. Behind the first that has none is asked."""
        for name, ((key_id, _, _), _seed) in self.core.seeds[self.held].items():
            told = self.outfit.links[name].status()
            plugins.judge_status(name, *told)
            if told[2].encode() != key_id:
                return True
        return False


# ---- the whole


def status_of(replies):
    for word, status in (("fault", 4), ("memory", 5), ("full", 6), ("unhealthy", 3)):
        if any(reply.split()[0] == word for reply in replies):
            return status
    bad = ("refused", "absent", "gone", "present")
    left = any(reply.startswith("rewrite") and not reply.endswith(" 0") for reply in replies)
    return int(left or any(reply.split()[0] in bad for reply in replies))


def opened(world, workers, programs, replicas, files):
    """The outfits of the workers, and what each replica publishes with the first one's."""
    outfits = [Outfit(world, seat, programs) for seat in range(len(workers))]
    try:
        opening = [None if file == "-" else (files[file], outfits[0].publish(files[file])) for _, file in replicas]
    except plugins.Unhealthy as no:
        raise Stop(3, no.line()) from None
    return outfits, opening


def first_items(outfit, opening, rows):
    """The live rows as the first worker's links read them by the first replica's configuration: revision, resource and data of
    each path; no data where a value is refused. What was unwrapped isn't kept for the worker's lines."""
    (entries, seeds), items = opening, {}
    by_plugin = functools.partial(plugins.unseal, seeds, {name: Kept(link) for name, link in outfit.links.items()})
    for path, (revision, row) in sorted(store.live(rows).items()):
        resource = row.resource.decode()
        try:
            data = unseal(configuration.list_for(entries, resource), path, row.value, by_plugin)[0]
        except Refused:
            data = None
        items[path.decode()] = (revision, resource, data)
    return items


def work(options, world, watched=False):
    """The core behind all lines, the workers with their replies, and the items of the opening where these are wanted."""
    replicas, workers = load(world, options["file"])
    files = {file: load_settings(world, file) for file in files_named(replicas, workers)}
    programs = programs_of(options, [entry for entries in files.values() for entry in entries])
    tape = world.tape(options["store"], make=True)
    form, rows = tape.load()
    if budget(workers, rows) > MOST_JOURNAL:
        raise Stop(6, f"limit journal {MOST_JOURNAL}")
    outfits, opening = opened(world, workers, programs, replicas, files)
    first = first_items(outfits[0], opening[0], rows) if watched else {}
    begun = len(rows)
    core = Core(tape, form, rows, [name for name, _ in replicas], opening)
    replies = []
    for worker, outfit in zip(workers, outfits):
        serving = Serving(core, worker, outfit, files)
        replies.append([serving.reply(words) for words in worker.lines])
    tape.settle()
    return core, list(zip(workers, replies)), first, begun


def all_replies(told):
    return [reply for _, own in told for reply in own]


def run(options, world, output):
    core, told, _, _ = work(options, world)
    text = ["journal", *core.journal, "replies"]
    text += [f"{worker.name} {number} {reply}" for worker, own in told for number, reply in enumerate(own, 1)]
    output.write_all(("\n".join([*text, "end"]) + "\n").encode())
    return b"", status_of(all_replies(told))
