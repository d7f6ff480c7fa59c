"""Whole calls: the steps of the commands."""

import functools
from contextlib import suppress

from . import configuration, fleet, load, plugins, rollout, store, watch
from .board import Board
from .outside import Stop, load_settings, programs_of
from .values import Refused, check_of, inspected, reader_of, seal, unseal
from .words import Usage, WordsLimit, command_of

MOST_DATA = 2_097_152
MOST_VALUE = 2_162_688
MOST_JOURNAL = 4_000_000


def provider_text(provider):
    return ":".join(provider[:2]) if provider[1] else provider[0]


def check(options, world, output):
    entries = load_settings(world, options["config"])
    if "resource" in options:
        lines = [provider_text(provider) for provider in configuration.list_for(entries, options["resource"])]
    else:
        lines = [
            f"entry {number}: {','.join(patterns)}: {','.join(map(provider_text, providers))}" for number, (patterns, providers) in enumerate(entries)
        ]
    output.write_all("".join(line + "\n" for line in lines).encode())
    return b"", 0


def settings_of_object(options, world):
    """The settings of a call on an object, and the programs of the plugins that they name. The least name of a plugin without a
    program ends it."""
    entries = load_settings(world, options["config"])
    return entries, programs_of(options, entries)


class Bench:
    """The random source and the links of seat 0, with a seed of each plugin that is published."""

    def __init__(self, world, programs):
        self.dice = world.dice_of(0)
        self.links = {name: plugins.Kept(world.link_of(0, name, program)) for name, program in programs.items()}
        try:
            self.published = plugins.publish(self.links, self.dice.draw)
        except plugins.Unhealthy as no:
            raise Stop(3, no.line()) from None

    def seal(self, providers, path, data):
        return seal(providers[0], path.encode(), data, self.dice.draw, functools.partial(plugins.seal, self.published))

    def unseal(self, providers, path, value):
        return unseal(providers, path.encode(), value, functools.partial(plugins.unseal, self.published, self.links))


def encrypt(options, world, source, output):
    entries, programs = settings_of_object(options, world)
    data = source.read_all(MOST_DATA, "data")
    bench = Bench(world, programs)
    output.write_all(bench.seal(configuration.list_for(entries, options["resource"]), options["path"], data))
    return b"", 0


def decrypt(options, world, source, output):
    entries, programs = settings_of_object(options, world)
    value = source.read_all(MOST_VALUE, "value")
    bench = Bench(world, programs)
    data, is_stale = bench.unseal(configuration.list_for(entries, options["resource"]), options["path"], value)
    output.write_all(data)
    return b"stale\n" if is_stale else b"fresh\n", 0


def inspect(source, output):
    output.write_all(inspected(source.read_all(MOST_VALUE, "value")))
    return b"", 0


def put(options, world, source, output):
    entries, programs = settings_of_object(options, world)
    data = source.read_all(MOST_DATA, "data")
    tape = world.tape(options["store"], make=True)
    form, rows = tape.load()
    providers = configuration.list_for(entries, options["resource"])
    value = Bench(world, programs).seal(providers, options["path"], data)
    tape.add(form, rows, store.Row(options["path"].encode(), options["resource"].encode(), value, check_of(providers[0])))
    tape.settle()
    output.write_all(b"revision %d\n" % (len(rows) + 1))
    return b"", 0


def get(options, world, output):
    entries, programs = settings_of_object(options, world)
    _form, rows = world.tape(options["store"]).load()
    found = store.live(rows).get(options["path"].encode())
    if found is None:
        raise Stop(1, f"absent {options['path']}")
    row = found[1]
    data, is_stale = Bench(world, programs).unseal(configuration.list_for(entries, row.resource.decode()), options["path"], row.value)
    output.write_all(data)
    return b"stale\n" if is_stale else b"fresh\n", 0


def list_rows(options, world, output):
    _form, rows = world.tape(options["store"]).load()
    output.write_all(store.listing(rows))
    return b"", 0


def migrated(entries, row):
    """A row as the second format has it: a put has the check of the provider that reads it."""
    if row.value is None:
        return row
    provider = reader_of(configuration.list_for(entries, row.resource.decode()), row.value)
    return store.Row(row.path, row.resource, row.value, bytes(8) if provider is None else check_of(provider))


def migrate(options, world, output):
    entries = load_settings(world, options["config"])
    source = world.tape(options["store"])
    _form, rows = source.load()
    if source.content.startswith(store.MAGICS[2]):
        raise Stop(3, "text 53 2")
    target = world.tape(options["to"], make=True)
    copied = target.load_new()
    for row in rows:
        target.add(2, copied, migrated(entries, row))
        copied.append(row)
    target.settle()
    output.write_all(b"migrated %d\n" % len(rows))
    return b"", 0


def board_of(rows, replicas):
    """The board of the stored rows and of the replicas' configurations, of which each is judged beside those before it."""
    board = Board(len(replicas))
    readers = {path: reader_of(configuration.list_for(replicas[0], row.resource.decode()), row.value) for path, (_, row) in store.live(rows).items()}
    stray = sorted(path for path, provider in readers.items() if provider is None)
    if stray:
        raise Stop(3, f"text 48 {stray[0].decode()}")
    for path, (_, row) in sorted(store.live(rows).items()):
        if row.check is not None and row.check != check_of(readers[path]):
            raise Stop(3, f"text 51 {path.decode()}")
        board.needs[path.decode()] = (row.resource.decode(), readers[path])
    for number, entries in enumerate(replicas):
        verdict = board.verdict(number, entries)
        if verdict != "pass":
            raise Stop(3, f"text 49 {number} {verdict}")
        board.add(number, entries)
    return board


def judge(options, world, output):
    _form, rows = world.tape(options["store"]).load()
    replicas = [load_settings(world, name) for name in options["replica"]]
    number, _, name = options["reload"].partition("=")
    entries = load_settings(world, name)
    verdict = board_of(rows, replicas).verdict(int(number), entries)
    output.write_all(verdict.encode() + b"\n")
    return b"", 0 if verdict == "pass" else 1


def verified(bench, entries, path, row):
    """What is said of a live row."""
    try:
        _data, is_stale = bench.unseal(configuration.list_for(entries, row.resource.decode()), path.decode(), row.value)
    except Refused as no:
        return f"refused {no.text()}"
    return "stale" if is_stale else "fresh"


def verify(options, world, output):
    entries, programs = settings_of_object(options, world)
    _form, rows = world.tape(options["store"]).load()
    bench = Bench(world, programs)
    lines, counts = [], {"fresh": 0, "stale": 0, "refused": 0}
    for path, (revision, row) in sorted(store.live(rows).items()):
        said = verified(bench, entries, path, row)
        lines.append(f"{revision} {row.resource.decode()} {path.decode()} {said}")
        counts[said.split(" ")[0]] += 1
    lines += [f"{word} {count}" for word, count in counts.items()]
    output.write_all("".join(f"{line}\n" for line in lines).encode())
    return b"", 1 if counts["refused"] else 0


def rewritten(bench, providers, form, rows, tape, row):
    """What becomes of a live row; where it is written anew, that row stands behind the others."""
    try:
        data, is_stale = bench.unseal(providers, row.path.decode(), row.value)
        if not is_stale:
            return "fresh"
        if len(data) > MOST_DATA:
            return "left"
        value = bench.seal(providers, row.path.decode(), data)
    except Refused:
        return "left"
    new = store.Row(row.path, row.resource, value, check_of(providers[0]))
    tape.add(form, rows, new)
    rows.append(new)
    return "rewritten"


def rewrite(options, world, output):
    entries, programs = settings_of_object(options, world)
    tape = world.tape(options["store"])
    form, rows = tape.load()
    live = [row for _, (_, row) in sorted(store.live(rows).items())]
    if 4 * len(live) + 3 > MOST_JOURNAL:
        raise Stop(6, f"limit journal {MOST_JOURNAL}")
    bench = Bench(world, programs)
    board_of(rows, [entries])
    counts = {"rewritten": 0, "fresh": 0, "changed": 0, "left": 0}
    report = lambda: "".join(f"{what} {count}\n" for what, count in counts.items()).encode()
    try:
        for row in live:
            counts[rewritten(bench, configuration.list_for(entries, row.resource.decode()), form, rows, tape, row)] += 1
    except Stop:
        # where the store can't be settled that alone is told; else why it was cut short stands, whatever becomes of the report
        tape.settle()
        with suppress(Stop):
            output.write_all(report())
        raise
    tape.settle()
    output.write_all(report())
    return b"", 1 if counts["left"] else 0


def answer(words, world, source, output):
    """Does what the words ask for, and gives what is told on the errors, and the status."""
    try:
        command, options = command_of(words)
    except Usage:
        raise Stop(2, "usage: kmsrest COMMAND OPTIONS") from None
    except WordsLimit as no:
        raise Stop(6, f"limit {no}") from None
    try:
        if command == "check":
            return check(options, world, output)
        if command == "judge":
            return judge(options, world, output)
        if command == "plan":
            return rollout.plan(options, world, output)
        if command == "list":
            return list_rows(options, world, output)
        if command == "put":
            return put(options, world, source, output)
        if command == "get":
            return get(options, world, output)
        if command == "fleet":
            return fleet.run(options, world, output)
        if command == "watch":
            return watch.run(options, world, output)
        if command == "gen":
            return load.run(options, world, output)
        if command == "rewrite":
            return rewrite(options, world, output)
        if command == "verify":
            return verify(options, world, output)
        if command == "migrate":
            return migrate(options, world, output)
        if command == "inspect":
            return inspect(source, output)
        return (encrypt if command == "encrypt" else decrypt)(options, world, source, output)
    except Refused as no:
        raise Stop(1, f"refused {no.text()}") from None


def run(words, world, source, output, errors):
    """The status of the call."""
    try:
        told, status = answer(words, world, source, output)
    except Stop as stop:
        told, status = f"kmsrest: {stop.line}\n".encode(), stop.status
    try:
        errors.write_all(told)
    except Stop:
        return 4
    return status
