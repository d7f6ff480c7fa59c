"""Watches of fleets in which one worker has lines: what is shown in pages, the changes since a revision, and what comes before."""

import base64
import random

from reference.store import written
from reference.values import check_of, prefix

from .fleet_tables import DATA, DRAWN, DRAWN_FILES, FILES, drawn_line, script_of
from .form import PATH, Spelled, config, repeated, spell
from .plugin_tables import DRAWN as DRAWN_TO_SEAL
from .plugin_tables import OTHER, ZEROS, plugin, value
from .rewrite_tables import BY_1, BY_2, GCM, IDENTITY, broken, by_plugin, delete
from .rewrite_tables import sealed as really_sealed
from .store_tables import TWO, put, row_bytes, sealed

ONE = [f"put secrets {PATH} {DATA}", f"get {PATH}", "get /registry/secrets/d/t"]
PUTS = [f"put secrets /{name} {DATA}" for name in "badce"] + [f"put pods /c1 {DATA}", "put secrets /f -"]


def words(*more, resource="secrets", limit="2", programs=()):
    named = [word for program in programs for word in ("--plugin", program)]
    return ["watch", "--file", "fleet", "--store", "s", "--resource", resource, "--limit", limit, *more, *named]


def watch(book, name, replicas, lines, *more, content=b"", drawn=DRAWN, workers=("w a",), plugins=(), programs=(), resource="secrets", limit="2", behind=None, behind_names=(), **others):
    """A watch of a fleet, of whose workers the last has the lines; `behind` are further ones as they are spelled, which name these
    files. `drawn` are the random bytes of the first seat, or those of each in a dict."""
    script = script_of(replicas, lines, workers)
    named = {word for line in script for word in line.split(" ")} | set(behind_names)
    text = "\n".join(script) + "\n"
    files = [("fleet", text if behind is None else Spelled(spell(text)) + behind)]
    seats = drawn if isinstance(drawn, dict) else {0: drawn} if drawn is not None else {}
    book.case(
        f"watch_{name}",
        words(*more, resource=resource, limit=limit, programs=programs),
        files=[*files, *((own, config(FILES[own])) for own in FILES if own in named)],
        dice=tuple(seats.items()),
        tapes=() if content is None else (("s", content),),
        absent=("s",) if content is None else (),
        plugins=[line for it in plugins for line in it],
        **others,
    )


def since(book, name, replicas, lines, revisions, **more):
    """The same watch for the changes since each of the revisions."""
    for revision in revisions:
        watch(book, f"{name}_since_{revision}", replicas, lines, "--since", str(revision), **more)


# ---- pages


def add_worked(book):
    """Those of the fleet with three lines."""
    watch(book, "one", ["a one.json"], ONE, limit="1")
    since(book, "one", ["a one.json"], ONE, (0, 1, 2), limit="1")
    watch(book, "done_ahead", ["a one"], [f"put secrets /s {DATA}"], "--since=2")
    watch(book, "done_since_0", ["a one"], [f"put secrets /s {DATA}"], "--since=0")


def add_pages(book):
    for limit in (1, 2, 3, 5, 6, 7, 500, 10000):
        watch(book, f"pages_of_{limit}", ["a one"], PUTS, limit=str(limit))
    watch(book, "pages_of_pods", ["a one"], PUTS, resource="pods")
    watch(book, "pages_of_none", ["a one"], PUTS, resource="deployments.apps")
    for limit in (1, 500):
        watch(book, f"nothing_put_{limit}", ["a one"], [], limit=str(limit))
        watch(book, f"deleted_{limit}", ["a one"], [*PUTS, "delete /c", "delete /b", "delete /g"], limit=str(limit))
        watch(book, f"all_deleted_{limit}", ["a one"], [*PUTS[:2], "delete /a", "delete /b"], limit=str(limit))
    for end in "abcef":
        watch(book, f"deleted_at_a_page_s_end_{end}", ["a one"], [*PUTS, f"delete /{end}"])
    watch(book, "put_again", ["a one"], [*PUTS, "put secrets /c aGk=", "put pods /d aGk="], limit="4")
    watch(book, "put_for_another_resource", ["a one"], [*PUTS, "put pods /c aGk=", "put secrets /c1 aGk="], resource="pods")
    watch(book, "deleted_and_put_again", ["a one"], ["put secrets /s aGk=", "delete /s", f"put secrets /s {DATA}"])
    paths = ["/b", "/a/b", "/a", "/B", "/a!", "!", "~", "/a/", "/" * 1024]
    watch(book, "order_of_bytes", ["a bare"], [f"put secrets {path} aGk=" for path in paths], limit="1")
    data = [b"", b"a", b"ab", b"abc", bytes(range(256)), b"\xff" * 3000, b"\n"]
    watch(book, "data", ["a bare"], [f"put secrets /{at} {base64.b64encode(it).decode() or '-'}" for at, it in enumerate(data)], step=4096)
    watch(book, "resource_of_group", ["a bare"], ["put deployments.apps /a aGk=", "put deployments /b aGk=", "put apps /c -"], resource="deployments.apps")
    watch(book, "prefix_of_a_resource", ["a bare"], ["put deployments.apps /a aGk=", "put deployments /b aGk=", "put apps /c -"], resource="deployments")


def add_many_pages(book):
    """Pages of 500, whose last one is full, or one short, or alone."""
    lines = [f"put s /{number:03} -" for number in range(501)]
    for limit in (250, 499, 500, 501):
        watch(book, f"501_in_pages_of_{limit}", ["a bare"], lines, resource="s", limit=str(limit), step=4096)
    rows = written(1, [put(f"/{number * 7 % 501:03}", b"", "s") for number in range(501)])
    watch(book, "opening_of_501_in_pages_of_500", ["a bare"], ["delete /500", "put s /250 aGk="], content=rows, resource="s", limit="500", step=4096)


# ---- openings


def add_openings(book):
    rows = written(1, [really_sealed("/b", BY_1), put("/a", b"ho"), put("/c", b""), really_sealed("/p", IDENTITY, resource="pods"), delete("/c")])
    for limit in (1, 2, 500):
        watch(book, f"opening_{limit}", ["a old"], [], content=rows, limit=str(limit))
    watch(book, "opening_of_pods", ["a old"], [], content=rows, resource="pods")
    since(book, "opening", ["a old"], [], (0, 4, 5, 6), content=rows)
    since(book, "opening_and_changes", ["a old"], [f"put secrets /b {DATA}", "delete /a", f"put pods /q {DATA}"], (4, 5, 6, 7, 8, 9), content=rows)
    plain = written(1, [put("/b", b"hi"), put("/a", b"ho")])
    for limit in (1, 2, 500):
        watch(book, f"opening_rewritten_{limit}", ["a old"], ["rewrite"], content=plain, limit=str(limit))
    since(book, "opening_rewritten", ["a old"], ["rewrite"], (1, 2, 3, 4, 5), content=plain)
    for form in (1, 2):
        stored = written(form, [really_sealed("/b", BY_1, b"first"), really_sealed("/a", BY_2), really_sealed("/c", IDENTITY), really_sealed("/b", BY_2, b"again")])
        watch(book, f"opening_by_each_key_{form}", ["a both"], ["reload a new", "rewrite", "delete /a"], content=stored)
        watch(book, f"opening_by_each_key_{form}_changes", ["a both"], ["reload a new", "rewrite", "delete /a"], "--since=4", content=stored)
    watch(book, "opening_by_aesgcm", ["a gcm"], [], content=written(2, [really_sealed("/a", ("aesgcm", "g", bytes(range(32))))]))
    watch(book, "empty_store", ["a old"], [])
    watch(book, "bare_magic", ["a old"], [], content=written(1, []))
    watch(book, "absent_store", ["a one"], ONE, content=None)
    since(book, "empty_store", ["a old"], [], (0, 1))
    since(book, "absent_store", ["a old"], [], (0, 1), content=None)
    watch(book, "all_of_the_opening_deleted", ["a old"], [], content=written(2, [really_sealed("/s", BY_1), delete("/s")]))
    watch(book, "hundred", ["a old"], ["rewrite"], content=written(2, [really_sealed(f"/{number * 37 % 100:02}", BY_1 if number % 3 else IDENTITY, b"%d" % number) for number in range(100)]),
          drawn=bytes(range(256)) * 3, limit="33", step=1024)


def add_unread(book):
    """Values of the opening that are refused: they are shown without data, until another is put."""
    unread = written(2, [broken("/b", True), really_sealed("/a", BY_1), broken("/c", True), put("/d", prefix(BY_1) + bytes(32), check=check_of(BY_1))])
    for name, lines in {
        "": [], "_rewritten": ["reload a new", "rewrite"], "_put_over": [f"put secrets /b {DATA}", "get /c"], "_deleted": ["delete /b", "delete /d"],
        "_deleted_and_put": ["delete /c", "put secrets /c -"],
    }.items():
        watch(book, f"unread{name}", ["a both"], lines, content=unread, drawn=bytes(range(200)))
    since(book, "unread", ["a both"], [f"put secrets /b {DATA}", "delete /c"], (4, 6), content=unread)
    watch(book, "unread_alone", ["a both"], [], content=written(1, [broken("/b", True)]), limit="1")
    watch(book, "unread_tag", ["a gcm"], [], content=written(1, [really_sealed("/b", GCM)]))
    watch(book, "unread_padding_of_format_1", ["a one"], [], content=written(1, [sealed("/b", "aescbc:key1=S1")]))


# ---- changes


ROTATION = [
    f"put secrets /s {DATA}", "put secrets /t aGk=", "reload a both", "reload b both", "reload a new", "reload b new", "put pods /p -", "rewrite", "delete /t",
    "reload a last", "reload b last", "put secrets /s aG8=", "rewrite",
]


def add_rotations(book):
    replicas = ["a old", "b old"]
    drawn = bytes(range(256))
    for limit in (1, 2, 500):
        watch(book, f"rotation_{limit}", replicas, ROTATION, drawn=drawn, limit=str(limit))
    since(book, "rotation", replicas, ROTATION, range(9), drawn=drawn)
    for number in range(1, len(ROTATION), 2):
        watch(book, f"rotation_behind_{number}", replicas, ROTATION[:number], drawn=drawn)
    comings = ["join b last", "join b both", "leave a", "get /s", "leave b", "join a last", "join a new", "get /s"]
    watch(book, "joins_and_leaves", ["a both", "b -"], [f"put secrets /s {DATA}", *comings])
    since(book, "joins_and_leaves", ["a both", "b -"], [f"put secrets /s {DATA}", *comings], (0, 2))
    gone = ["leave b", "leave a", f"put secrets /s {DATA}", "get /s", "refresh", "rewrite", "delete /s"]
    watch(book, "of_a_replica_that_is_gone", ["a one", "b -"], ["put secrets /s aGk=", *gone])
    since(book, "of_a_replica_that_is_gone", ["a one", "b -"], ["put secrets /s aGk=", *gone], (0, 1, 2, 3))
    back = ["put secrets /s aGk=", "reload a both", "rewrite", "reload a new", "rewrite", "reload a both", "rewrite", "delete /s", f"put secrets /s {DATA}"]
    watch(book, "rewritten_there_and_back", ["a old"], back, drawn=drawn)
    since(book, "rewritten_there_and_back", ["a old"], back, (0, 1, 2, 3, 5, 6), drawn=drawn)
    watch(book, "put_refused_is_no_change", ["a bare"], ["put secrets /s azhzOmVuYzp4", "put secrets /t aGk="])
    since(book, "put_refused", ["a bare"], ["put secrets /s azhzOmVuYzp4", "put secrets /t aGk="], (0, 1, 2))
    since(book, "deletes_of_nothing", ["a bare"], ["delete /s", "put secrets /t aGk=", "delete /s"], (0, 1, 2))


def add_kept(book):
    """As many changes as are kept, and more: of these the oldest are gone."""
    for count, revisions in {999: (0, 999, 1000), 1000: (0, 1, 1000, 1001), 1001: (0, 1, 2, 1000, 1001, 1002), 2500: (1499, 1500, 1501, 2500, 2501)}.items():
        since(book, f"{count}_puts", ["a bare"], [], revisions, behind=repeated(count, b"put s /s -\n"), resource="s", step=4096)
    since(book, "501_puts_and_deletes", ["a bare"], [], (1, 2, 1001), behind=repeated(501, b"put s /s -\ndelete /s\n"), resource="s", step=4096)
    rows = written(1, [put("/a", b"hi"), put("/b", b"ho"), delete("/a")])
    since(book, "opening_and_1000_puts", ["a bare"], [], (2, 3, 4, 1003, 1004), content=rows, behind=repeated(1000, b"put s /s -\n"), step=4096)
    since(book, "opening_and_1001_puts", ["a bare"], [], (3, 4, 5, 1004, 1005), content=rows, behind=repeated(1001, b"put s /s -\n"), step=4096)
    watch(book, "opening_and_1001_puts", ["a bare"], [], content=rows, behind=repeated(1001, b"put secrets /s -\n"))
    fresh = Spelled(spell("delete /s\nget /b\n"))
    since(book, "a_delete_behind_1001_puts", ["a bare"], [], (4, 5, 1004, 1005), content=rows, behind=repeated(1001, b"put s /s -\n") + fresh, step=4096)
    turns = repeated(501, b"reload a old\nrewrite\nreload a bare\nrewrite\n")
    more = {"content": written(1, [put("/b", b"ho")]), "behind": turns, "behind_names": ("old",), "drawn": bytes(16 * 501)}
    since(book, "1002_replaces", ["a bare"], [], (2, 3, 1002, 1003, 1004), step=4096, **more)
    watch(book, "1002_replaces", ["a bare"], [], **more)


# ---- workers and plugins


def add_workers(book):
    lines = [f"put secrets /s {DATA}", "get /s", "put secrets /t -"]
    for name, more in {"": (), "_since_0": ("--since", "0"), "_since_3": ("--since", "3")}.items():
        watch(book, f"second_worker_has_the_lines{name}", ["a one"], lines, *more, drawn={0: b"", 1: DRAWN}, workers=("v a", "w a"))
        watch(book, f"fourth_worker_of_three_replicas{name}", ["a old", "b both", "c -"], lines, *more, drawn={0: b"", 1: b"", 2: b"", 3: DRAWN}, workers=("t a", "u b", "v c", "w b"))
    watch(book, "second_worker_without_dice", ["a one"], [], workers=("v a", "w a"))
    watch(book, "worker_at_another_replica", ["a one", "b -"], ["get /s", "join b one", f"put secrets /s {DATA}"], workers=("w b",))


def with_plugins(book, name, replicas, lines, *more, plugins=(plugin(),), programs=("p=prog",), **others):
    watch(book, f"kms_{name}", replicas, lines, *more, plugins=plugins, programs=programs, **{"drawn": ZEROS + DRAWN_TO_SEAL * 2, **others})


def add_plugins(book):
    lines = [f"put secrets /s {DATA}", "get /s"]
    with_plugins(book, "put_and_get", ["a kms"], lines)
    with_plugins(book, "put_and_get_since", ["a kms"], lines, "--since", "0")
    stored = written(2, [by_plugin("/s"), put("/t", b"hi", check=bytes(8)), by_plugin("/u", b"other", source=bytes([0x44 ^ 0x9D]) * 32, seed=OTHER)])
    with_plugins(book, "opening", ["a kms"], [], content=stored, limit="1")
    with_plugins(book, "opening_read_again_by_the_worker", ["a kms"], ["get /s", "get /u", "get /u"], content=stored)
    with_plugins(book, "opening_of_another_seed", ["a kms"], ["get /s"], content=stored, drawn=bytes(range(32)))
    with_plugins(book, "opening_with_another_key", ["a kms"], ["rewrite"], plugins=(plugin(key_id="k2"),), content=stored, drawn=ZEROS + DRAWN_TO_SEAL * 3)
    with_plugins(book, "opening_with_another_key_since", ["a kms"], ["rewrite"], "--since=4", plugins=(plugin(key_id="k2"),), content=stored, drawn=ZEROS + DRAWN_TO_SEAL * 3)
    with_plugins(book, "opening_by_identity", ["a reads"], ["get /s"], content=stored)
    # status and wrap are asked for what the replica publishes, then the rows in the order of their paths
    for number in range(3, 8):
        with_plugins(book, f"opening_fault_{number}", ["a kms"], ["get /s", "get /u"], plugins=(plugin(fails=str(number)),), content=stored, drawn=bytes(range(32)))
    with_plugins(book, "opening_fault_since", ["a kms"], [], "--since", "9", plugins=(plugin(fails="3"),), content=stored, drawn=bytes(range(32)))
    wrong = {
        "wire": prefix(("kms", "p")) + b"\x0a", "path": value(), "length": value(source=bytes([0x9D]) * 31), "kind": value(kind=3),
    }
    for name, own in wrong.items():
        with_plugins(book, f"opening_unread_{name}", ["a kms"], ["get /v"], content=written(1, [put("/v", own), put("/w", b"hi")]))
    # the reading comes before what the core's start refuses
    stray = [by_plugin("/s"), sealed("/a", "aescbc:key2=S2")]
    with_plugins(book, "opening_48", ["a kms"], [], content=written(2, stray), drawn=OTHER)
    with_plugins(book, "opening_fault_before_48", ["a kms"], [], plugins=(plugin(fails="3"),), content=written(2, stray), drawn=OTHER)
    with_plugins(book, "opening_51", ["a kms"], [], content=written(2, [by_plugin("/s"), put("/t", b"hi")]), drawn=OTHER)
    with_plugins(book, "opening_fault_before_51", ["a kms"], [], plugins=(plugin(fails="3"),), content=written(2, [by_plugin("/s"), put("/t", b"hi")]), drawn=OTHER)
    with_plugins(book, "opening_49", ["a kms", "b old"], [], content=written(2, [by_plugin("/s")]), drawn=OTHER)
    with_plugins(book, "opening_fault_before_49", ["a kms", "b old"], [], plugins=(plugin(fails="3"),), content=written(2, [by_plugin("/s")]), drawn=OTHER)
    # of two workers the first one's link reads them, behind what it is asked for the replica
    seats = {"drawn": {0: bytes(range(32)), 1: DRAWN_TO_SEAL * 3}, "workers": ("v a", "w a"), "content": stored}
    for number in (1, 2):
        first, second = plugin(fails=str(number + 2)), plugin(seat=1, fails=str(number))
        with_plugins(book, f"opening_fault_of_the_first_seat_{number}", ["a kms"], ["get /s"], plugins=(first, plugin(seat=1)), **seats)
        with_plugins(book, f"fault_of_the_second_seat_{number}", ["a kms"], ["get /s", "get /u"], plugins=(plugin(), second), **seats)
    with_plugins(book, "45", ["a kms"], lines, plugins=(plugin(says=("v2", "down")),), content=stored)
    with_plugins(book, "44", ["a two"], lines, plugins=(plugin(), plugin("q")))
    for number in (1, 2):
        with_plugins(book, f"publish_fault_{number}", ["a kms"], lines, plugins=(plugin(fails=str(number)),), content=stored)


# ---- the status


def add_statuses(book):
    """`gone` and `ahead` are status 1 where the replies would be 0, and else what the replies decide."""
    put_one = f"put secrets /s {DATA}"
    cases = {
        "refused": (["a one"], [put_one, "get /t"], {}),
        "left": (["a new"], ["rewrite"], {"content": written(2, [broken("/s", True)])}),
        "failed": (["a one"], [put_one, "put secrets /t -"], {"fails": (("writes:s", 1),)}),
        "no_dice": (["a one"], [put_one, "put secrets /t -"], {"drawn": DRAWN[:20]}),
        "unhealthy": (["a bare"], [put_one, "reload a kms"], {"plugins": (plugin(says=("v2", "down")),), "programs": ("p=prog",)}),
        "plugin_failed": (["a bare"], [put_one, "reload a kms"], {"plugins": (plugin(fails="1"),), "programs": ("p=prog",)}),
    }
    for name, (replicas, lines, more) in cases.items():
        for revision in (None, "0", "9"):
            asked = () if revision is None else ("--since", revision)
            watch(book, f"status_{name}_{'pages' if revision is None else 'since_' + revision}", replicas, lines, *asked, **more)
    # there is no line
    for name, asked in {"pages": (), "ahead": ("--since", "9")}.items():
        watch(book, f"no_line_{name}", ["a one"], [put_one, "get /t"], *asked, fails=(("errors", 1),))
    watch(book, "no_line_done", ["a one"], [put_one], fails=(("errors", 1),))


# ---- words


def add_words(book):
    greatest = "18446744073709551615"
    for name, more in {
        "limit_0": words(limit="0"),
        "limit_10000": words(limit="10000"),
        "limit_10001": words(limit="10001"),
        "limit_10001_one_word": words()[:7] + ["--limit=10001"],
        "limit_of_70_digits": words(limit="1" + "0" * 69),
        "limit_leading_zero": words(limit="01"),
        "limit_00": words(limit="00"),
        "limit_sign": words(limit="+1"),
        "limit_negative": words(limit="-1"),
        "limit_hex": words(limit="0x1"),
        "limit_with_space": words(limit="1 "),
        "limit_foreign_digit": words(limit="\u0661"),
        "limit_empty": words(limit=""),
        "limit_twice": words() + ["--limit", "1"],
        "limit_missing": ["watch", "--file", "fleet", "--store", "s", "--resource", "secrets"],
        "limit_without_value": words()[:-1],
        "resource_missing": ["watch", "--file", "fleet", "--store", "s", "--limit", "1"],
        "resource_twice": words() + ["--resource", "pods"],
        "resource_capital": words(resource="Secrets"),
        "resource_empty": words(resource=""),
        "resource_star": words(resource="*.apps"),
        "file_missing": ["watch", "--store", "s", "--resource", "secrets", "--limit", "1"],
        "store_missing": ["watch", "--file", "fleet", "--resource", "secrets", "--limit", "1"],
        "since_greatest": words("--since", greatest),
        "since_above": words("--since", "18446744073709551616"),
        "since_of_70_digits": words("--since", "1" + "0" * 69),
        "since_above_and_limit": words("--since", "18446744073709551616", limit="10001"),
        "since_greatest_and_limit": words("--since", greatest, limit="10001"),
        "since_leading_zero": words("--since", "00"),
        "since_sign": words("--since", "+0"),
        "since_empty": words("--since="),
        "since_without_value": words("--since"),
        "since_twice": words("--since", "1", "--since", "1"),
        "since_alone": ["watch", "--file", "fleet", "--store", "s", "--since", "0"],
        "limit_above_and_resource": words(resource="Secrets", limit="10001"),
        "limit_above_and_plugin": words(limit="10001", programs=("p=",)),
        "limit_above_before_the_file": words(limit="10001"),
        "after": words("--after", "/a"),
        "path": words("--path", "/a"),
        "limit_of_fleet": ["fleet", "--file", "fleet", "--store", "s", "--limit", "1"],
        "since_of_fleet": ["fleet", "--file", "fleet", "--store", "s", "--since", "1"],
        "any_order": ["watch", "--since", "0", "--limit", "1", "--resource", "secrets", "--store", "s", "--file", "fleet"],
        "plugins_not_named": words(programs=("p=x", "q=y")),
        "capital": ["Watch", *words()[1:]],
        "alone": ["watch"],
    }.items():
        watch_words(book, name, more)


def watch_words(book, name, given):
    """A call by these words, where there is what a watch wants."""
    files = [("fleet", "fleet 1\nreplica a bare\nworker w a\nput secrets /s aGk=\n"), ("bare", config(FILES["bare"]))]
    book.case(f"watch_words_{name}", given, files=files, dice=((0, DRAWN),), tapes=(("s", b""),))


# ---- what is refused, and what fails


def add_refusals(book):
    key1 = "aescbc:key1=S1"
    watch(book, "48", ["a bare"], [], content=written(2, [sealed("/b", "aescbc:key2=S2"), sealed("/a", "aescbc:key2=S2")]))
    watch(book, "51", ["a one"], [], content=written(2, [sealed("/s", key1)]))
    watch(book, "49", ["a old", "b last"], [], content=written(2, [sealed("/s", key1)]))
    watch(book, "49_between_replicas", ["a old", "b -", "c last"], [], "--since", "0")
    for name, content in {"41": b"KRSTORE3", "42": TWO[:-1], "43": TWO + row_bytes(2, 2, put("/ s")), "46": TWO + row_bytes(2, 1, put("/s"))}.items():
        watch(book, name, ["a one"], [], content=content)
    book.case("watch_40_absent", words(), tapes=(("s", b""),))
    book.case("watch_40_configuration", words(), (("fleet", "fleet 1\nreplica a one\nworker w a\n"),), tapes=(("s", b""),))
    for name, script in {"empty": "", "second_version": "fleet 2\n", "no_worker": "fleet 1\nreplica a bare\n", "first_replica_is_out": "fleet 1\nreplica a -\nworker w a\n"}.items():
        book.case(f"watch_47_{name}", words(), (("fleet", script), ("bare", config(FILES["bare"]))), dice=((0, DRAWN),), tapes=(("s", b""),))
    many = repeated(1000, b"put secrets /s -\n") + repeated(1000, b"rewrite\n")
    watch(book, "limit_journal", ["a bare"], [], behind=many, fails=(("files", 4),))


def add_faults(book):
    lines = [f"put secrets /s {DATA}", "get /s", "put secrets /t -", "rewrite"]
    stored = written(2, [really_sealed("/a", IDENTITY)])
    for number in range(1, 6):
        watch(book, f"fault_files_{number}", ["a one"], lines, content=stored, fails=(("files", number),))
    for number in (1, 2, 3):
        watch(book, f"fault_reads_{number}", ["a one"], lines, content=stored, fails=(("reads:s", number),))
        watch(book, f"fault_writes_{number}", ["a one"], lines, content=stored, fails=(("writes:s", number),))
        watch(book, f"fault_writes_{number}_since", ["a one"], lines, "--since", "1", content=stored, fails=(("writes:s", number),))
        watch(book, f"fault_dice_{number}", ["a one"], lines, content=stored, fails=(("dice:0", number),))
    watch(book, "fault_settle", ["a one"], lines, content=stored, fails=(("settles:s", 1),))
    watch(book, "fault_settle_behind_a_cut", ["a one"], lines, content=stored, fails=(("writes:s", 1), ("settles:s", 1)))
    watch(book, "fault_writes_of_a_delete", ["a one"], [lines[0], "delete /s", "delete /a"], content=stored, fails=(("writes:s", 2),))
    watch(book, "no_dice", ["a one"], lines, drawn=None)
    watch(book, "dice_ends", ["a one"], lines, drawn=bytes(20))
    for number in (1, 2, 7, 20, 31, 36):
        watch(book, f"fault_output_{number}", ["a one"], lines, content=stored, fails=(("output", number),))
        watch(book, f"fault_output_{number}_since", ["a one"], lines, "--since", "1", content=stored, fails=(("output", number),))
    watch(book, "output_without_room", ["a one.json"], ONE, room=20)
    watch(book, "output_of_no_room", ["a one.json"], ONE, "--since", "2", room=0)
    watch(book, "fault_output_of_ahead", ["a one.json"], ONE, "--since", "2", fails=(("output", 3),))
    watch(book, "fault_of_the_line", ["a one.json"], ONE, fails=(("output", 2), ("errors", 4)))
    watch(book, "input_is_not_read", ["a one"], lines, data=b"hello", fails=(("input", 1),))


# ---- watches that are drawn


def add_drawn(book):
    draw = random.Random(53)
    for at in range(60):
        replicas = ["a", "b", "c"][: draw.randint(1, 3)]
        first = draw.choice(DRAWN_FILES)
        opening = [f"a {first}"] + [f"{name} {draw.choice((first, first, first, '-'))}" for name in replicas[1:]]
        lines = [drawn_line(draw, replicas) for _ in range(draw.randint(4, 12))]
        fails = draw.choice(((), (), (("writes:s", draw.randint(1, 3)),), (("dice:0", draw.randint(1, 4)),)))
        links = [plugin(keys=((draw.randint(2, 5), "k2"),), fails=draw.choice((None, None, str(draw.randint(1, 8)))))]
        second = by_plugin("/b") if first in ("reads", "kms") else draw.choice((really_sealed("/b", BY_1), broken("/b", True)))
        stored = [really_sealed("/a", IDENTITY, b"hi"), second, really_sealed("/e", IDENTITY)]
        rows = draw.choice(([], stored, stored, stored[::2]))
        content = written(draw.randint(1, 2), rows) if rows else b""
        asked = () if at % 2 else ("--since", str(max(len(rows) + draw.randint(-1, 4), 0)))
        workers = (f"w {draw.choice([*replicas, *'aaa'])}",)
        watch(book, f"drawn_{at}", opening, lines, *asked, content=content, drawn=bytes(range(256)) * 2, workers=workers, plugins=links, programs=("p=prog",),
              limit=str(draw.randint(1, 3)), fails=fails)


def add_all(book):
    book.title("watches: pages")
    add_worked(book)
    add_pages(book)
    add_many_pages(book)
    book.title("watches: openings")
    add_openings(book)
    add_unread(book)
    book.title("watches: changes")
    add_rotations(book)
    add_kept(book)
    book.title("watches: workers and plugins")
    add_workers(book)
    add_plugins(book)
    book.title("watches: statuses, words, what is refused and what fails")
    add_statuses(book)
    add_words(book)
    add_refusals(book)
    add_faults(book)
    book.title("watches: drawn")
    add_drawn(book)
