"""Fleets in which one worker has lines, so that their output is the same at each run: what it does, what it begins with, and
what fails."""

import random
from pathlib import Path

from reference.store import written
from reference.values import prefix

from .form import PATH, Spelled, config, repeated, spell
from .plugin_tables import DRAWN as DRAWN_TO_SEAL
from .plugin_tables import OTHER, ZEROS, plugin, value
from .store_tables import put, sealed

ONE = "secrets: aescbc:key1=K16, identity"
OLD = "secrets: aescbc:key1=S1, identity"
BOTH = "secrets: aescbc:key1=S1, aescbc:key2=S2, identity"
NEW = "secrets: aescbc:key2=S2, aescbc:key1=S1, identity"
LAST = "secrets: aescbc:key2=S2, identity"
BARE = "secrets: identity, aescbc:key1=S1"
GCM = "secrets: aesgcm:g=K32, identity"
KMS = "secrets: kms:p, identity"
TWO = "secrets: kms:p, kms:q, identity"
READS = "secrets: identity, kms:p"
FILES = {"one": ONE, "one.json": ONE, "old": OLD, "both": BOTH, "new": NEW, "last": LAST, "bare": BARE, "gcm": GCM, "kms": KMS, "two": TWO, "reads": READS}
DATA = "aGVsbG8="
DRAWN = bytes(range(1, 129))
WORDS = ["fleet", "--file", "fleet", "--store", "s"]
EXAMPLES = Path(__file__).resolve().parent.parent.parent.parent / "examples"


def script_of(replicas, lines, workers=("w a",)):
    """The lines of a fleet file; the lines of the last worker stand behind it."""
    return ["fleet 1"] + [f"replica {replica}" for replica in replicas] + [f"worker {worker}" for worker in workers] + list(lines)


def fleet(book, name, replicas, lines, content=b"", drawn=DRAWN, workers=("w a",), plugins=(), programs=(), only=None, ends="\n", **more):
    """A fleet, of whose workers the last has the lines. Of the configurations there are those that it names, or those of `only`.
    `drawn` are the random bytes of the first seat, or those of each in a dict."""
    script = script_of(replicas, lines, workers)
    named = {word for line in script for word in line.split(" ")}
    files = [(own, config(FILES[own])) for own in FILES if own in named and (only is None or own in only)]
    file(book, name, ends.join(script) + ends, files, content, drawn, plugins, programs, **more)


def file(book, name, script, files=(), content=b"", drawn=None, plugins=(), programs=(), **more):
    """A call on the bytes of a fleet file; the store is absent where there is no content."""
    seats = drawn if isinstance(drawn, dict) else {} if drawn is None else {0: drawn}
    words = WORDS + [word for program in programs for word in ("--plugin", program)]
    book.case(
        f"fleet_{name}",
        words,
        files=[("fleet", script), *files],
        dice=tuple(seats.items()),
        tapes=() if content is None else (("s", content),),
        absent=("s",) if content is None else (),
        plugins=[line for it in plugins for line in it],
        **more,
    )


# ---- what the lines do


def add_rollouts(book):
    fleet(book, "one", ["a one.json"], [f"put secrets /registry/secrets/d/s {DATA}", "get /registry/secrets/d/s", "get /registry/secrets/d/t"])
    rollout = ["reload a new", "reload a both", "reload b both", "reload a new", "reload b new", "reload a last", "rewrite"]
    fleet(book, "rollout", ["a old", "b old"], [f"put secrets /s {DATA}", *rollout, "reload a last", "reload b last"])
    comings = ["join b last", "join b both", "leave a", "get /s", "leave b", "join a last", "join a new", "get /s"]
    fleet(book, "joins_and_leaves", ["a both", "b -"], [f"put secrets /s {DATA}", *comings])


def add_example(book):
    """The fleet of examples/fleet, as the README shows it."""
    files = [(f"../rotation/{name}.yaml", (EXAMPLES / "rotation" / f"{name}.yaml").read_text()) for name in ("old", "both", "new", "last")]
    file(book, "of_the_examples", (EXAMPLES / "fleet" / "rollout").read_text(), files, b"", DRAWN)


def add_lines(book):
    fleet(book, "no_lines", ["a one"], [])
    fleet(book, "no_data", ["a one"], ["put secrets /s -", "get /s"])
    fleet(book, "delete", ["a one"], ["delete /s", f"put secrets /s {DATA}", "delete /s", "get /s", "delete /s"])
    fleet(book, "rewrite_of_nothing", ["a one"], ["rewrite"])
    fleet(book, "refresh_without_plugins", ["a one"], ["refresh"])
    fleet(book, "refused_13", ["a bare"], ["put secrets /s azhzOmVuYzp4", "put secrets /t aGk=", "get /t"])
    fleet(book, "other_resource", ["a one"], [f"put pods /s {DATA}", "get /s", "rewrite"])
    fleet(book, "aesgcm", ["a gcm"], [f"put secrets /s {DATA}", f"put secrets /t {DATA}", "get /s", "rewrite"])
    fleet(book, "reload_of_the_same", ["a one"], [f"put secrets /s {DATA}", "reload a one", "rewrite", "get /s"])
    fleet(book, "reload_twice_and_back", ["a old"], ["reload a both", f"put secrets /s {DATA}", "reload a old", "reload a bare"])
    fleet(book, "present", ["a one"], ["join a one"])
    fleet(book, "gone", ["a one", "b -"], ["reload b one", "leave b", "leave a", f"put secrets /s {DATA}", "get /s", "refresh", "rewrite", "delete /s"])
    fleet(book, "last_leaves", ["a old"], ["leave a", "join a last"])
    fleet(book, "worker_at_another_replica", ["a one", "b -"], ["get /s", "join b one", "get /s"], workers=("w b",))
    fleet(book, "lines_end_with_cr", ["a one"], [f"put secrets /s {DATA}", "get /s"], ends="\r\n")
    fleet(book, "file_of_the_name_of_none", ["a one", "b -"], ["join b -"])


def add_stored(book):
    key1 = "aescbc:key1=S1"
    plain = [put("/b", b"hi", check=bytes(8)), put("/a", b"ho", check=bytes(8))]
    fleet(book, "absent_store", ["a one"], [f"put secrets /s {DATA}", "get /s"], None)
    fleet(book, "stored", ["a old"], ["get /a", "rewrite", "get /a", "get /b"], written(2, plain))
    fleet(book, "stored_format_1", ["a old"], ["get /a", "rewrite", f"put secrets /c {DATA}"], written(1, [put("/a", b"ho")]))
    fleet(book, "stored_and_deleted", ["a one"], ["delete /b", "get /b", "get /a", "rewrite"], written(2, plain))
    fleet(book, "stored_but_refused", ["a old"], ["get /s", "rewrite"], written(2, [sealed("/s", key1)]))
    fleet(book, "48", ["a bare"], [], written(2, [sealed("/b", "aescbc:key2=S2"), sealed("/a", "aescbc:key2=S2")]))
    fleet(book, "51", ["a one"], [], written(2, [sealed("/s", key1)]))
    fleet(book, "49", ["a old", "b last"], [], written(2, [sealed("/s", key1)]))
    fleet(book, "49_between_replicas", ["a old", "b -", "c last"], [])
    fleet(book, "42_torn_store", ["a one"], [], b"KRSTORE2\1")
    fleet(book, "41", ["a one"], [], b"KRSTORE3")


def add_workers(book):
    """Two or more workers, each with a random source of its own; the replicas publish by the first one's."""
    lines = [f"put secrets /s {DATA}", "get /s"]
    fleet(book, "second_worker_has_the_lines", ["a one"], lines, drawn={0: b"", 1: DRAWN}, workers=("v a", "w a"))
    fleet(book, "third_of_four_replicas", ["a old", "b both", "c -", "d both"], lines, drawn={0: b"", 1: b"", 2: DRAWN}, workers=("u a", "v b", "w d"))
    fleet(book, "first_worker_has_the_lines", ["a one"], [*lines, "worker v a"], drawn={0: DRAWN, 1: b""})
    fleet(book, "second_worker_without_dice", ["a one"], [], workers=("v a", "w a"))
    fleet(book, "dice_of_the_second", ["a one"], lines, drawn={0: DRAWN, 1: bytes(15)}, workers=("v a", "w a"))
    seats = {0: ZEROS, 1: DRAWN_TO_SEAL}
    for name, links in {"links_of_two": (0, 1), "link_of_the_second_is_missing": (0,), "link_of_the_first_is_missing": (1,)}.items():
        with_plugins(book, name, ["a kms"], lines, [plugin(seat=seat) for seat in links], drawn=seats, workers=("v a", "w a"))


# ---- many workers, and each worker's own things


def crew_of(names, at, lines):
    """Workers at the first replica of which the one at this place has the lines: those before it, and the lines of the others."""
    behind = [f"worker {name} a" for name in names[at + 1 :]]
    return {"workers": tuple(f"{name} a" for name in names[: at + 1])}, [*lines, *behind]


def add_many(book):
    """As many workers and replicas as there may be, and each worker's random source and link."""
    replicas = [f"r{at} {'one' if at % 3 < 2 else '-'}" for at in range(16)]
    workers = tuple(f"w{at} r{at % 16}" for at in range(64))
    lines = [f"put secrets /s {DATA}", "get /s", "join r14 one", "join r2 one", "leave r2", "reload r15 one", "rewrite"]
    fleet(book, "64_workers_16_replicas", replicas, lines, drawn={seat: b"" for seat in range(63)} | {63: DRAWN}, workers=workers)
    fleet(book, "64_workers_without_the_last_dice", replicas, lines, drawn={seat: b"" for seat in range(63)}, workers=workers)
    by_plugin = [f"r{at} {'kms' if at in (0, 15) else '-'}" for at in range(16)]
    links, seeds = [plugin(seat=seat) for seat in range(64)], {0: ZEROS + OTHER} | {seat: b"" for seat in range(1, 63)}
    for name, own in {"": links, "_without_the_last_link": links[:63]}.items():
        with_plugins(book, f"64_workers{name}", by_plugin, lines[:2], own, drawn=seeds | {63: DRAWN_TO_SEAL}, workers=workers)
    for at in range(3):
        crew, own = crew_of("uvw", at, [f"put secrets /s {DATA}", "get /s", f"put secrets /t {DATA}", "get /t"])
        for number in (1, 2):
            fleet(book, f"dice_{number}_of_worker_{at}", ["a one"], own, drawn={seat: DRAWN for seat in range(3)}, fails=((f"dice:{at}", number),), **crew)
    add_links(book)


def add_links(book):
    """The links of one worker after the other fail, at its lines and before; those of the others don't."""
    stored = written(2, [put(PATH, value(), check=bytes(8)), put("/t", b"hi", check=bytes(8))])
    rest = OTHER + DRAWN_TO_SEAL * 3
    seats = {0: ZEROS + rest, 1: rest, 2: rest}
    lines = [f"get {PATH}", "refresh", "reload a kms", f"put secrets /s {DATA}", "rewrite", f"get {PATH}"]
    for at in range(3):
        crew, own = crew_of("uvw", at, lines)
        more = {"content": stored, "drawn": seats, **crew}
        # (the first worker's link is asked twice before, for what the replica publishes)
        for number in range(1, 5) if at else range(3, 7):
            links = [plugin(key_id="k2", seat=seat, fails=str(number) if seat == at else None) for seat in range(3)]
            with_plugins(book, f"link_{number}_of_worker_{at}", ["a kms"], own, links, **more)
        down = [plugin(key_id="k2", seat=seat, says=("v2", "down") if seat == at else None) for seat in range(3)]
        with_plugins(book, f"unhealthy_link_of_worker_{at}", ["a kms"], own, down, **more)
    crew, own = crew_of("uvw", 1, lines)
    links = [plugin(key_id="k2", seat=seat) for seat in range(3)]
    # each call for a random source and for a link, from the first worker's on
    for number in range(4, 10):
        with_plugins(book, f"outfit_fault_{number}", ["a kms"], own, links, content=stored, drawn=seats, fails=(("files", number),), **crew)


# ---- plugins


def with_plugins(book, name, replicas, lines, plugins, programs=("p=prog",), **more):
    fleet(book, f"kms_{name}", replicas, lines, plugins=plugins, programs=programs, **{"drawn": ZEROS + DRAWN_TO_SEAL, **more})


def add_plugins(book):
    lines = [f"put secrets /s {DATA}", "get /s"]
    with_plugins(book, "put_and_get", ["a kms"], lines, [plugin()])
    with_plugins(book, "rewrite_is_fresh", ["a kms"], [lines[0], "rewrite"], [plugin()])
    with_plugins(book, "refresh_unchanged", ["a kms"], ["refresh", lines[0]], [plugin()])
    # the key id is another from the refresh's first call on: stale by it, and sealed anew
    turned = [plugin(keys=((3, "k2"),))]
    drawn = ZEROS + DRAWN_TO_SEAL + OTHER + DRAWN_TO_SEAL
    with_plugins(book, "refresh", ["a kms"], [lines[0], "refresh", "get /s", "rewrite", "get /s"], turned, drawn=drawn)
    with_plugins(book, "refresh_twice", ["a kms"], ["refresh", "refresh"], turned, drawn=ZEROS + OTHER)
    other = [plugin(keys=((5, "k2"),))]
    with_plugins(book, "refresh_of_the_second_replica", ["a reads", "b kms"], ["refresh"], other, workers=("w b",), drawn=bytes(96))
    with_plugins(book, "refresh_unhealthy", ["a kms"], ["refresh", "get /s"], [plugin(keys=((3, ""),))])
    with_plugins(book, "refresh_of_two", ["a two"], ["refresh"], [plugin(), plugin("q", keys=((3, "k2"),))], ("q=y", "p=x"), drawn=bytes(range(128)))
    for number in range(1, 6):
        with_plugins(book, f"refresh_fault_{number}", ["a kms"], ["refresh"], [plugin(keys=((3, "k2"),), fails=str(number))], drawn=ZEROS + OTHER)
    with_plugins(book, "refresh_without_a_seed", ["a kms"], ["refresh"], turned, drawn=ZEROS)
    # a configuration with a plugin is brought: its seed is made first
    bring = ["reload a kms", lines[0], "get /s"]
    with_plugins(book, "reload", ["a bare"], bring, [plugin()])
    with_plugins(book, "reload_refused", ["a one"], ["reload a kms"], [plugin()], ("p=prog",), content=written(2, [sealed("/s", "aescbc:key1=K16")]))
    with_plugins(book, "reload_of_one_that_is_gone", ["a bare", "b -"], ["reload b kms"], [plugin()])
    with_plugins(book, "join", ["a reads", "b -"], ["join b kms", "join b kms", "leave b"], [plugin()], drawn=bytes(96))
    for number in (1, 2):
        with_plugins(book, f"reload_fault_{number}", ["a bare"], bring, [plugin(fails=str(number))])
    with_plugins(book, "reload_unhealthy", ["a bare"], bring, [plugin(says=("v2", "caf\u00e9"))])
    with_plugins(book, "reload_unhealthy_version", ["a bare"], bring, [plugin(says=("v1", "ok"))])
    with_plugins(book, "reload_without_a_seed", ["a bare"], bring, [plugin()], drawn=bytes(31))
    # what a replica publishes at the opening
    with_plugins(book, "45", ["a kms"], lines, [plugin(says=("v2", "down"))])
    with_plugins(book, "45_before_48", ["a kms"], lines, [plugin(says=("v2", "down"))], content=written(2, [sealed("/s", "aescbc:key1=K16")]))
    with_plugins(book, "44", ["a two"], lines, [plugin(), plugin("q")])
    with_plugins(book, "44_of_a_line_s_file", ["a bare"], ["reload a kms"], [], ())
    for number in (1, 2):
        with_plugins(book, f"opening_fault_{number}", ["a kms"], lines, [plugin(fails=str(number))])
    with_plugins(book, "opening_without_a_seed", ["a kms"], lines, [plugin()], drawn=bytes(31))
    with_plugins(book, "each_replica_has_a_seed", ["a kms", "b kms"], lines, [plugin()], drawn=ZEROS + OTHER + DRAWN_TO_SEAL)
    with_plugins(book, "link_fails", ["a kms"], lines, [plugin()], fails=(("files", 5),))
    add_stored_by_plugins(book)


def add_stored_by_plugins(book):
    """Values that were there: their sources are unwrapped once, and kept."""
    stored = written(2, [put(PATH, value(), check=bytes(8)), put("/t", b"hi", check=bytes(8))])
    lines = [f"get {PATH}", f"get {PATH}"]
    with_plugins(book, "stored", ["a kms"], lines, [plugin()], content=stored, drawn=OTHER)
    with_plugins(book, "stored_is_rewritten", ["a kms"], ["rewrite", "get /t"], [plugin()], content=stored, drawn=OTHER + DRAWN_TO_SEAL)
    with_plugins(book, "stored_with_another_key", ["a kms"], ["rewrite", f"get {PATH}"], [plugin(key_id="k2")], content=stored, drawn=OTHER + DRAWN_TO_SEAL * 2)
    with_plugins(book, "stored_at_another_path", ["a kms"], ["get /u", "rewrite"], [plugin()], content=written(2, [put("/u", value(), check=bytes(8))]), drawn=OTHER)
    for number in (3, 4):
        with_plugins(book, f"stored_fault_{number}", ["a kms"], lines, [plugin(fails=str(number))], content=stored, drawn=OTHER)
    with_plugins(book, "stored_fault_in_a_rewrite", ["a kms"], ["rewrite"], [plugin(fails="3")], content=stored, drawn=OTHER)
    broken = written(2, [put("/s", prefix(("kms", "p")) + b"\x0a", check=bytes(8)), put("/t", b"hi", check=bytes(8))])
    with_plugins(book, "stored_and_broken", ["a kms"], ["get /s", "rewrite", "get /t"], [plugin()], content=broken, drawn=OTHER + DRAWN_TO_SEAL)


# ---- refusals and limits


def add_refusals(book):
    file(book, "40", "", content=b"", fails=(("files", 1),))
    book.case("fleet_40_absent", WORDS, tapes=(("s", b""),))
    fleet(book, "40_configuration", ["a one"], ["reload a old"], only=("one",))
    fleet(book, "40_first_mentioned", ["a one", "b old"], ["reload a new"], only=())
    script = "fleet 1\nreplica a one\nworker w a\nreload a c.json\n"
    file(book, "24_of_a_line_s_file", script, [("one", config(ONE)), ("c.json", '{"apiVersion":"apiserver.config.k8s.io/v1"}')], b"")
    for at, script in enumerate(BREACHES):
        file(book, f"47_{at}", script, [("one", config(ONE))], b"")
    file(book, "47_not_utf8", b"fleet 1\nreplica a one\nworker w a\nget /\xff\n", [("one", config(ONE))], b"")
    replicas = "".join(f"replica r{at} one\n" for at in range(17))
    workers = "".join(f"worker w{at} a\n" for at in range(65))
    file(book, "limit_replicas", f"fleet 1\n{replicas}worker w r0\n", [], b"")
    file(book, "limit_workers", f"fleet 1\nreplica a one\n{workers}", [], b"")
    start = Spelled(spell("fleet 1\nreplica a one\nworker w a\n"))
    # (a file above 64 MiB is handed to the built program by tools/system/random-fleets)
    file(book, "limit_data", start + "put secrets /s " + repeated(2_796_204, b"A"), [], b"")
    many = start + repeated(1000, b"put secrets /s -\n") + repeated(1000, b"rewrite\n")
    file(book, "limit_journal_before_dice", many, [("one", config(ONE))], b"", fails=(("files", 4),))


BREACHES = (
    "",
    "fleet 2\n",
    "fleet 1\n",
    "fleet 1\nreplica a one\n",
    "fleet 1\nreplica a -\nworker w a\n",
    "fleet 1\nreplica a one\nworker w b\n",
    "fleet 1\nreplica a one\nreplica a one\nworker w a\n",
    "fleet 1\nreplica a one\nworker w a\nget\n",
    "fleet 1\nreplica a one\nworker w a\nput secrets /s aGk\n",
    "fleet 1\nreplica a one\nworker w a\nreload b one\n",
    "fleet 1\nreplica a one\nget /s\nworker w a\n",
    "# first\n\nfleet 1\nreplica a one\nworker w a\nreplica b one\n",
)


# ---- what fails


def add_faults(book):
    lines = [f"put secrets /s {DATA}", "get /s", "rewrite"]
    for number in range(2, 6):
        fleet(book, f"files_{number}", ["a one"], lines, fails=(("files", number),))
    fleet(book, "no_dice", ["a one"], lines, drawn=None)
    fleet(book, "dice", ["a one"], lines, fails=(("dice:0", 1),))
    fleet(book, "dice_in_a_rewrite", ["a one"], ["rewrite", "get /s"], written(2, [put("/s", b"hi", check=bytes(8))]), fails=(("dice:0", 1),))
    fleet(book, "dice_ends", ["a one"], lines + [f"put secrets /t {DATA}"], drawn=bytes(20))
    for number in range(1, 4):
        fleet(book, f"writes_{number}", ["a one"], lines + [f"put secrets /t {DATA}", "delete /s"], fails=(("writes:s", number),))
    for numbers in ("1", "2", "3", "1 2", "1 2 3"):
        # behind a failed put the tape is cut and settled, and all is settled at the end
        named = numbers.replace(" ", "_")
        fleet(book, f"settles_{named}", ["a one"], lines + [f"put secrets /t {DATA}", "delete /s"], fails=(("writes:s", 1), ("settles:s", numbers)))
    fleet(book, "settle", ["a one"], lines, fails=(("settles:s", 1),))
    fleet(book, "cut", ["a one"], lines + [f"put secrets /t {DATA}", "delete /t"], fails=(("writes:s", "1 2"),))
    fleet(book, "write_in_a_rewrite", ["a one"], ["rewrite", "rewrite"], written(2, [put("/s", b"hi", check=bytes(8))]), fails=(("writes:s", 1),))
    for number in (1, 2):
        fleet(book, f"reads_{number}", ["a one"], lines, written(2, [put("/s", b"hi", check=bytes(8))]), fails=(("reads:s", number),))
    for number in (1, 9, 100):
        fleet(book, f"output_{number}", ["a one"], lines, fails=(("output", number),))
    fleet(book, "output_without_room", ["a one"], lines, room=20)
    fleet(book, "fault_before_refused", ["a one"], ["get /s", *lines], fails=(("writes:s", 1),))
    fleet(book, "fault_of_the_line", ["a old", "b last"], [], fails=(("errors", 3),))
    fleet(book, "input_is_not_read", ["a one"], ["get /s"], data=b"hello", fails=(("input", 1),))


# ---- fleets that are drawn


PATHS = ("/a", "/b", "/c/d")
DRAWN_FILES = ("old", "both", "new", "bare", "reads", "kms", "kms")


def drawn_line(draw, replicas):
    kind = draw.choice(["put"] * 5 + ["get"] * 4 + ["delete"] + ["rewrite"] * 2 + ["refresh"] * 3 + ["reload"] * 4 + ["join", "leave"])
    if kind == "put":
        return f"put secrets {draw.choice(PATHS)} {draw.choice(('aGk=', DATA, '-', 'azhzOmVuYzp4'))}"
    if kind in ("get", "delete"):
        return f"{kind} {draw.choice(PATHS)}"
    if kind in ("reload", "join"):
        return f"{kind} {draw.choice(replicas)} {draw.choice(DRAWN_FILES)}"
    return f"leave {draw.choice(replicas)}" if kind == "leave" else kind


def add_drawn(book):
    """Few lines each, so that a failing call of the outside is mostly met."""
    draw = random.Random(19)
    for at in range(40):
        replicas = ["a", "b", "c"][: draw.randint(1, 3)]
        first = draw.choice(DRAWN_FILES)
        opening = [f"a {first}"] + [f"{name} {draw.choice((first, first, first, '-'))}" for name in replicas[1:]]
        lines = [drawn_line(draw, replicas) for _ in range(draw.randint(4, 10))]
        fails = draw.choice(((), (), (("writes:s", draw.randint(1, 3)),), (("dice:0", draw.randint(1, 4)),)))
        plugins = [plugin(keys=((draw.randint(2, 5), "k2"),), fails=draw.choice((None, None, str(draw.randint(1, 6)))))]
        stored = [put("/a", b"hi", check=bytes(8)), put("/b", b"ho", check=bytes(8))]
        content = draw.choice((b"", written(2, stored), written(1, stored)))
        fleet(book, f"drawn_{at}", opening, lines, content, bytes(range(256)) * 2, (f"w {draw.choice([*replicas, *'aaa'])}",), plugins, ("p=prog",), fails=fails)


def add_all(book):
    book.title("fleets of which one worker has lines: what the lines do")
    add_rollouts(book)
    add_example(book)
    add_lines(book)
    book.title("fleets: what they begin with")
    add_stored(book)
    add_workers(book)
    add_many(book)
    book.title("fleets: plugins")
    add_plugins(book)
    book.title("fleets: what is refused")
    add_refusals(book)
    book.title("fleets: what fails")
    add_faults(book)
    book.title("fleets: drawn")
    add_drawn(book)
