"""What is told of each live row of a store: whether it can be read by a configuration, and whether a rewrite would leave it."""

import itertools

from reference.store import written
from reference.values import MARK, check_of, prefix

from .call_tables import Causes, altered, files
from .form import IV, config
from .plugin_tables import KMS, NOTE, OTHER, ZEROS, plugin, sealing, value
from .rewrite_tables import BY_1, BY_2, GCM, IDENTITY, OTHER_SEED, OTHER_SOURCE, broken, by_plugin, sealed
from .store_tables import BOTH, LAST, NEW, OLD, ONE, PLAIN, TWO, delete, put as row, row_bytes

PLUGIN = {"plugins": (plugin(),), "programs": ("p=prog",)}
KEYED = "secrets: aesgcm:g=Z16, identity"


def verify_words(store="s", programs=()):
    words = ["verify", "--config", "c.json", "--store", store]
    return words + [word for program in programs for word in ("--plugin", program)]


def verify(book, name, rows=(), text=NEW, drawn=b"", content=None, form=2, plugins=(), programs=(), **more):
    """A call of `verify` on the tape `s`."""
    tape = written(form, list(rows)) if content is None else content
    lines = [line for it in plugins for line in it]
    book.case(f"verify_{name}", verify_words(programs=programs), files(text), b"", ((0, drawn),), tapes=(("s", tape),), plugins=lines, **more)


# ---- what is told of rows


def add_rows(book):
    verify(book, "empty", content=b"")
    verify(book, "bare_magic_1", content=written(1, []))
    verify(book, "bare_magic_2", content=written(2, []))
    verify(book, "all_deleted", [sealed("/s", BY_1), delete("/s")])
    verify(book, "fresh", content=TWO, text=PLAIN)
    verify(book, "fresh_of_format_1", content=ONE, text=PLAIN)
    verify(book, "fresh_by_key2", [sealed("/s", BY_2)])
    verify(book, "fresh_by_aesgcm", [sealed("/s", GCM)], text=KEYED)
    verify(book, "stale", [sealed("/s", BY_1)])
    verify(book, "stale_of_format_1", [sealed("/s", BY_1)], form=1)
    verify(book, "stale_plain", [sealed("/s", IDENTITY)])
    verify(book, "stale_by_aesgcm", [sealed("/s", GCM)], text="secrets: identity, aesgcm:g=Z16")
    verify(book, "no_data", [sealed("/s", BY_2, b""), sealed("/t", IDENTITY, b"")])
    verify(book, "each_word", [sealed("/a", BY_2), sealed("/b", BY_1), broken("/c", True)])
    verify(book, "each_word_of_format_1", [sealed("/a", BY_2), sealed("/b", BY_1), broken("/c", True)], form=1)
    verify(book, "by_paths", [sealed(path, BY_1 if at % 2 else BY_2, path.encode()) for at, path in enumerate(("/b", "/a", "/c", "/B", "/a/b", "/a!", "!", "~"))])
    verify(book, "deleted", [sealed("/s", BY_1), sealed("/t", BY_1), delete("/s")])
    verify(book, "put_again", [sealed("/s", IDENTITY), sealed("/t", BY_1), delete("/s"), sealed("/s", BY_2, b"again")])
    verify(book, "put_over", [broken("/s", True), sealed("/s", BY_2), sealed("/t", BY_2), broken("/t", True)])
    verify(book, "by_resources", [sealed("/a", IDENTITY, resource="a"), sealed("/b", IDENTITY), sealed("/c", GCM, resource="c.x"), sealed("/d", BY_1, resource="a")],
           text="a: identity | secrets: aescbc:key1=S1, identity | *.*: aesgcm:g=Z16, identity")
    verify(book, "resource_without_an_entry", [sealed("/a", IDENTITY, resource="pods"), sealed("/b", BY_1, resource="pods")])
    verify(book, "longest_path", [sealed("/" * 1024, BY_1, resource="r" * 253)], text="*.*: identity, aescbc:key1=S1")
    verify(book, "longer", [sealed("/s", IDENTITY, bytes(70_000)), sealed("/t", BY_1, bytes(3_000))], step=8192)
    verify(book, "hundred", [sealed(f"/r/{number * 37 % 100}", (BY_1, BY_2, IDENTITY)[number % 3], b"%d" % number) for number in range(100)])
    verify(book, "tenth_isnt_read", [broken(f"/r/{number:04}", number % 10 == 7) for number in range(100)], text="secrets: identity, aescbc:key1=S1", step=512)
    # what can be read and not be written anew is stale, as a `get` says
    verify(book, "stale_with_the_mark", [sealed("/s", BY_1, MARK + b"x")], text="secrets: identity, aescbc:key1=S1")
    verify(book, "stale_too_large", [row("/s", bytes(2_097_153), check=check_of(IDENTITY))], step=8192)
    # a rotation, before and behind its rewrite
    for name, text in {"old": OLD, "both": BOTH, "new": NEW, "last": LAST}.items():
        verify(book, f"rotation_{name}", [sealed("/a", BY_1), sealed("/b", IDENTITY), sealed("/c", BY_2), delete("/b")], text=text)


def add_refused(book):
    short = row("/s", prefix(BY_1) + bytes(16), check=check_of(BY_1))
    verify(book, "refused_1", [short])
    verify(book, "refused_1_aesgcm", [row("/s", prefix(GCM) + bytes(27), check=check_of(GCM))], text=KEYED)
    verify(book, "refused_2", [broken("/s", True)])
    verify(book, "refused_3", [row("/s", prefix(BY_1) + bytes(32), check=check_of(BY_1))])
    verify(book, "refused_4", [row("/s", sealed("/t", GCM).value, check=check_of(GCM))], text=KEYED)
    verify(book, "refused_4_other_secret", [sealed("/s", GCM)], text="secrets: aesgcm:g=K16")
    verify(book, "refused_12", [sealed("/s", BY_1), sealed("/t", BY_2)], text=LAST)
    verify(book, "refused_12_strange", [row("/s", MARK + b"x"), row("/t", MARK)])
    verify(book, "refused_12_reader_of_another_resource", [sealed("/s", BY_1, resource="pods"), sealed("/t", BY_1)])
    verify(book, "refused_12_no_identity", [sealed("/s", IDENTITY)], text="secrets: aescbc:key1=S1")
    # a row that `rewrite` would end with 48 or 51 is told of, and ends nothing
    verify(book, "other_secret_of_the_name", [sealed("/s", GCM, check=bytes(8)), sealed("/t", GCM)], text=KEYED)
    verify(book, "all_refused", [sealed(path, BY_1) for path in ("/b", "/a", "/c")], text=PLAIN)
    verify(book, "refused_first_and_last", [broken("/a", True), sealed("/b", BY_2), sealed("/c", BY_1), row("/d", MARK)])
    front = prefix(("kms", "p"))
    whole = value()[len(front) :]
    for name, own in {
        "5": front + whole + b"\x0f",
        "6": value(key_id=b""),
        "7": value(source=b""),
        "8": value(annotations={**NOTE, b"a": bytes(32_768)}),
        "9": value(kind=3),
        "10": value(b""),
        "11": front + whole.replace(b"\x12\x02k1", b"\x12\x02\xc3\x28"),
        "15": value(source=bytes([0x9D]) * 31),
        "1": value(bytes(59)),
        "4": value(altered(sealing(path="/s"), 60)),
    }.items():
        rows = [row("/s", own, check=check_of(("kms", "p"))), by_plugin("/t")]
        verify(book, f"plugin_refused_{name}", rows, text=KMS, drawn=OTHER, **PLUGIN)


# ---- plugins


def add_plugins(book):
    both = "secrets: kms:p, identity"
    two = [by_plugin("/a"), by_plugin("/b", source=OTHER_SOURCE, seed=OTHER_SEED)]
    verify(book, "plugin_fresh", [by_plugin("/s")], text=KMS, drawn=ZEROS, **PLUGIN)
    verify(book, "plugin_of_no_rows", text=KMS, drawn=OTHER, **PLUGIN)
    verify(book, "plugin_of_format_1", [by_plugin("/s")], text=KMS, drawn=OTHER, form=1, **PLUGIN)
    verify(book, "plugin_stale_key", [by_plugin("/s")], text=KMS, drawn=OTHER, plugins=(plugin(key_id="k2"),), programs=("p=prog",))
    verify(book, "plugin_changed_at_the_wrap", two, text=KMS, drawn=ZEROS, plugins=(plugin(keys=((2, "k2"),)),), programs=("p=prog",))
    verify(book, "plugin_changed_behind_the_wrap", two, text=KMS, drawn=ZEROS, plugins=(plugin(keys=((3, "k2"),)),), programs=("p=prog",))
    verify(book, "plugin_other_source", two, text=KMS, drawn=ZEROS, **PLUGIN)
    verify(book, "plugin_is_asked_once", [by_plugin(path, source=OTHER_SOURCE, seed=OTHER_SEED) for path in ("/a", "/b", "/c")], text=KMS, drawn=ZEROS, **PLUGIN)
    verify(book, "plugin_type_0", [by_plugin("/s", kind=0)], text=KMS, drawn=ZEROS, **PLUGIN)
    verify(book, "plugin_behind_identity", [by_plugin("/s"), sealed("/t", IDENTITY)], text="secrets: identity, kms:p", drawn=OTHER, **PLUGIN)
    verify(book, "plugin_before_identity", [by_plugin("/s"), sealed("/t", IDENTITY)], text=both, drawn=ZEROS, **PLUGIN)
    verify(book, "plugin_of_another_resource", [sealed("/s", BY_1)], text=NEW + " | a: kms:p", drawn=ZEROS, **PLUGIN)
    verify(book, "plugin_of_another_name", [row("/s", value(name="q")), by_plugin("/t")], text=KMS, drawn=ZEROS, **PLUGIN)
    verify(book, "plugins_of_two_names", [row("/s", value(name="q", data=sealing(path="/s"))), by_plugin("/t")], text="secrets: kms:q, kms:p", drawn=OTHER + OTHER,
           plugins=(plugin(), plugin("q")), programs=("q=y", "p=x"))
    for name, says in {"version": ("v1", "ok"), "healthz": ("v2", "down")}.items():
        verify(book, f"plugin_unhealthy_{name}", two, text=KMS, drawn=OTHER, plugins=(plugin(says=says),), programs=("p=prog",))
    verify(book, "plugin_unhealthy_key_id", two, text=KMS, drawn=OTHER, plugins=(plugin(key_id=""),), programs=("p=prog",))
    verify(book, "plugin_unhealthy_of_no_rows", text=KMS, drawn=OTHER, plugins=(plugin(says=("v2", "down")),), programs=("p=prog",))
    rows = [broken("/0", True), *two, sealed("/c", IDENTITY)]
    # status, wrap, and an unwrap for each row by the plugin: at a fault nothing of the listing is printed
    for number in range(1, 6):
        verify(book, f"plugin_fault_{number}", rows, text=both, drawn=OTHER, plugins=(plugin(fails=str(number)),), programs=("p=prog",))
    verify(book, "plugin_fault_of_the_second_row", two, text=both, drawn=ZEROS, plugins=(plugin(fails="3"),), programs=("p=prog",))
    verify(book, "plugin_fault_of_two_names", [by_plugin("/a")], text="secrets: kms:p, kms:q", drawn=OTHER + OTHER,
           plugins=(plugin(fails="3"), plugin("q")), programs=("q=y", "p=x"))
    verify(book, "plugin_fault_link", [by_plugin("/a")], text=KMS, drawn=ZEROS, fails=(("files", 4),), **PLUGIN)
    verify(book, "plugin_no_link", [by_plugin("/a")], text=KMS, drawn=ZEROS, programs=("p=prog",))
    verify(book, "plugin_fault_draw_of_a_seed", [by_plugin("/a")], text=KMS, drawn=ZEROS, fails=(("dice:0", 1),), **PLUGIN)
    verify(book, "plugin_dice_of_31", [by_plugin("/a")], text=KMS, drawn=ZEROS[:31], **PLUGIN)


# ---- refusals and faults


def add_refusals(book):
    verify(book, "44", [sealed("/s", IDENTITY)], text=KMS)
    verify(book, "44_least", [], text="secrets: kms:q, kms:p", programs=("r=x",))
    for name, content in {"41": b"KRSTORE3", "42": TWO[:-1], "43": TWO + row_bytes(2, 2, row("/ s")), "46": TWO + row_bytes(2, 1, row("/s"))}.items():
        verify(book, name, content=content)
    verify(book, "41_before_unhealthy", content=b"KRSTORE3", text=KMS, drawn=OTHER, plugins=(plugin(says=("v2", "down")),), programs=("p=prog",))
    book.case("verify_absent_store", verify_words(), files(PLAIN), b"", ((0, b""),), absent=("s",))
    book.case("verify_absent_configuration", verify_words(), (), b"", ((0, b""),), tapes=(("s", TWO),))
    book.case("verify_breach", verify_words(), (("c.json", "{}"),), b"", ((0, b""),), tapes=(("s", TWO),))
    book.case("verify_one_of_two", verify_words("t"), files(NEW), b"", ((0, IV),), tapes=(("s", TWO), ("t", ONE)))
    for name, words in {
        "with_path": verify_words() + ["--path", "/s"], "without_store": verify_words()[:3], "two_stores": verify_words() + ["--store", "t"],
        "without_configuration": ["verify", "--store", "s"], "alone": ["verify"], "capital": ["Verify", *verify_words()[1:]], "word_behind": verify_words() + ["x"],
        "plugin_twice": verify_words(programs=("p=x", "p=y")), "plugin_without_program": verify_words(programs=("p=",)),
    }.items():
        book.case(f"verify_words_{name}", words, files(PLAIN), b"", ((0, b""),), tapes=(("s", TWO),))


def add_faults(book):
    rows = [sealed("/a", BY_1), broken("/b", True), sealed("/c", BY_2), sealed("/d", BY_1)]
    for number in (1, 2, 3, 4):
        verify(book, f"fault_files_{number}", rows, fails=(("files", number),))
    for number in (1, 2, 3):
        verify(book, f"fault_read_{number}", rows, fails=(("reads:s", number),))
    verify(book, "no_row_is_written", rows, fails=(("writes:s", "1 2 3"),))
    verify(book, "nothing_is_drawn", rows, fails=(("dice:0", 1),))
    book.case("verify_no_dice", verify_words(), files(NEW), b"", (), tapes=(("s", TWO),))
    book.case("verify_dice_of_another_seat", verify_words(), files(NEW), b"", ((1, IV),), tapes=(("s", TWO),))
    for number in (1, 2, 21, 60, 106):
        verify(book, f"fault_output_{number}", rows, fails=(("output", number),))
    for room in (0, 4, 20):
        verify(book, f"output_of_{room}", rows, room=room)
    verify(book, "output_fails_though_all_is_fresh", [sealed("/c", BY_2)], fails=(("output", 3),))
    # there is no line to be written, where some are refused and where none is
    verify(book, "no_line", rows, fails=(("errors", 1),))
    verify(book, "no_line_where_all_is_read", [sealed("/c", BY_2)], fails=(("errors", 1),))
    verify(book, "fault_of_the_line", rows, fails=(("output", 2), ("errors", 4)))
    verify(book, "input_is_not_read", rows, fails=(("input", 1),))


# ---- pairs of causes: the earlier step decides

CAUSES = {
    "words": lambda it: it.but(words=it["words"][:-1]),
    "load_fails": lambda it: it.but(fails=(("files", 1),)),
    "breach": lambda it: it.but(files=(("c.json", "{}"),)),
    "44": lambda it: it.but(files=(("c.json", config("secrets: kms:q | a: kms:p")),)),
    "lend_fails": lambda it: it.but(fails=(("files", 2),)),
    "scan_fails": lambda it: it.but(fails=(("reads:s", 2),)),
    "torn": lambda it: it.but(tapes=(("s", it["tapes"][0][1][:-1]),)),
    "dice_fails": lambda it: it.but(fails=(("files", 3),)),
    "link_fails": lambda it: it.but(fails=(("files", 4),)),
    "draw_fails": lambda it: it.but(fails=(("dice:0", 1),)),
    "refused": lambda it: it.but(tapes=(("s", it["tapes"][0][1].replace(b"k8s:enc:kms:v2:p:", b"k8s:enc:kms:v2:o:", 1)),)),
    "output_fails": lambda it: it.but(fails=(("output", 1),)),
    "errors_fail": lambda it: it.but(fails=(("errors", 1),)),
}


def add_pairs(book):
    rows = [by_plugin("/s"), by_plugin("/t")]
    plain = Causes(words=verify_words(programs=("p=prog",)), files=files(KMS), data=b"", dice=((0, OTHER),), fails=(), tapes=(("s", written(2, rows)),))
    for (one, first), (other, second) in itertools.combinations(CAUSES.items(), 2):
        book.case(f"verify_pair_{one}_{other}", **first(second(plain)), plugins=plugin())


def add_all(book):
    book.title("verify")
    add_rows(book)
    add_refused(book)
    add_plugins(book)
    add_refusals(book)
    add_faults(book)
    book.title("pairs of causes of verify")
    add_pairs(book)
