"""Stores whose stale rows are written anew."""

import base64
import itertools

from reference.plugins import SEED, object_bytes
from reference.store import Row, row_bytes, written
from reference.values import MARK, check_of, prefix, seal, seal_gcm

from .call_tables import Causes, files
from .form import IV, SECRETS
from .plugin_tables import DRAWN, KMS, NOTE, SOURCE, ZEROS, plugin
from .store_tables import BOTH, LAST, NEW, OLD, ONE, PLAIN, TWO, delete, put as row

BY_1 = ("aescbc", "key1", base64.b64decode(SECRETS["S1"]))
BY_2 = ("aescbc", "key2", base64.b64decode(SECRETS["S2"]))
GCM = ("aesgcm", "g", bytes(16))
IDENTITY = ("identity", "")
# what sixteen rows draw, each another
DRAWS = bytes(range(256))


def rewrite_words(store="s", programs=()):
    words = ["rewrite", "--config", "c.json", "--store", store]
    return words + [word for program in programs for word in ("--plugin", program)]


def rewrite(book, name, rows=(), text=NEW, drawn=DRAWS, content=None, form=2, plugins=(), programs=(), **more):
    """A call of `rewrite` on the tape `s`."""
    tape = written(form, list(rows)) if content is None else content
    lines = [line for it in plugins for line in it]
    book.case(f"rewrite_{name}", rewrite_words(programs=programs), files(text), b"", ((0, drawn),), tapes=(("s", tape),), plugins=lines, **more)


def sealed(path, who, data=b"hello", resource="secrets", check=None):
    value = seal(who, path.encode(), data, lambda size: bytes([0x55]) * size)
    return row(path, value, resource, check_of(who) if check is None else check)


def by_plugin(path, data=b"hello", key_id=b"k1", source=SOURCE, kind=1, seed=ZEROS):
    """A put by the plugin `p`: with the seed expanded, or, of kind 0, with the seed as the key."""
    if kind:
        value = prefix(("kms", "p")) + object_bytes(DRAWN + seal_gcm(expanded(seed), DRAWN[32:], data, path.encode()), key_id, NOTE, source, 1)
    else:
        value = prefix(("kms", "p")) + object_bytes(DRAWN[32:] + seal_gcm(seed, DRAWN[32:], data, path.encode()), key_id, NOTE, source, 0)
    return row(path, value, "secrets", check_of(("kms", "p")))


def expanded(seed):
    from reference.plugins import expanded as expand

    return expand(seed, DRAWN[:32])


# a source of another seed, by the same plugin
OTHER_SEED = bytes([0x44]) * SEED
OTHER_SOURCE = bytes([0x44 ^ 0x9D]) * SEED


def add_rewrites(book):
    rewrite(book, "empty", content=b"")
    rewrite(book, "bare_magic", content=written(1, []))
    rewrite(book, "fresh", content=TWO, text=PLAIN)
    rewrite(book, "fresh_of_format_1", content=ONE, text=PLAIN)
    rewrite(book, "key1", [sealed("/s", BY_1)])
    rewrite(book, "key1_is_fresh", [sealed("/s", BY_1)], text=BOTH)
    rewrite(book, "key2_is_fresh", [sealed("/s", BY_1), sealed("/s", BY_2)])
    rewrite(book, "plain", [sealed("/s", IDENTITY)])
    rewrite(book, "plain_of_format_1", content=ONE)
    rewrite(book, "to_plain", [sealed("/s", BY_1)], text="secrets: identity, aescbc:key1=S1")
    rewrite(book, "to_aesgcm", [sealed("/s", BY_1)], text="secrets: aesgcm:g=Z16, aescbc:key1=S1")
    rewrite(book, "from_aesgcm", [sealed("/s", GCM)], text="secrets: aescbc:key1=S1, aesgcm:g=Z16")
    rewrite(book, "by_paths", [sealed(path, BY_1, path.encode()) for path in ("/b", "/a", "/c", "/B", "/a/b", "/a!")])
    rewrite(book, "some", [sealed("/c", BY_1), sealed("/a", BY_2), sealed("/b", IDENTITY), sealed("/d", BY_2)])
    rewrite(book, "deleted", [sealed("/s", BY_1), sealed("/t", BY_1), delete("/s")])
    rewrite(book, "put_again", [sealed("/s", IDENTITY), sealed("/t", BY_1), delete("/s"), sealed("/s", BY_1, b"again")])
    rewrite(book, "by_resources", [sealed("/a", IDENTITY, resource="a"), sealed("/b", IDENTITY), sealed("/c", IDENTITY, resource="c.x")],
            text="a: identity | secrets: aescbc:key1=S1, identity | *.*: aesgcm:g=Z16, identity")
    rewrite(book, "empty_data", [sealed("/s", BY_1, b"")])
    rewrite(book, "mark", [sealed("/s", BY_1, MARK)])
    rewrite(book, "longer", [sealed("/s", IDENTITY, bytes(70_000))], step=8192)
    rewrite(book, "longest_path", [sealed("/" * 1024, BY_1, resource="r" * 253)], text="*.*: identity, aescbc:key1=S1")
    rewrite(book, "hundred", [sealed(f"/r/{number * 37 % 100}", BY_1 if number % 3 else IDENTITY, b"%d" % number) for number in range(100)],
            text="secrets: identity, aescbc:key1=S1")
    rewrite(book, "tenth_isnt_read", [broken(f"/r/{number:04}", number % 10 == 7) for number in range(1000)], text="secrets: identity, aescbc:key1=S1")


def broken(path, really):
    """A put of key1; its padding is broken, or it isn't."""
    it = sealed(path, BY_1)
    return Row(it.path, it.resource, it.value[:-1], it.check) if really else it


def add_left(book):
    plain = "secrets: identity, aescbc:key1=S1"
    rewrite(book, "left_marked", [sealed("/s", BY_1, b"k8s:enc:x")], text=plain)
    rewrite(book, "left_short", [row("/s", prefix(BY_1) + bytes(16), check=check_of(BY_1))])
    rewrite(book, "left_bad_block", [broken("/s", True)])
    rewrite(book, "left_bad_tag", [row("/s", sealed("/t", GCM).value, check=check_of(GCM))], text="secrets: aesgcm:g=Z16")
    rewrite(book, "left_beside_others", [sealed("/a", BY_1), broken("/b", True), sealed("/c", BY_2), sealed("/d", BY_1)])
    rewrite(book, "left_too_large", [row("/s", bytes(2_097_153), check=check_of(IDENTITY)), sealed("/t", BY_1)], step=8192)
    rewrite(book, "largest_data", [row("/s", bytes(2_097_152), check=check_of(IDENTITY))], step=8192)
    rewrite(book, "left_object", [row("/s", prefix(("kms", "p")) + b"x", check=check_of(("kms", "p")))], text=KMS, drawn=ZEROS, plugins=(plugin(),), programs=("p=prog",))


def add_refusals(book):
    rewrite(book, "51", [sealed("/s", BY_1)], text="secrets: aescbc:key1=S2")
    rewrite(book, "51_least", [sealed("/b", BY_1), sealed("/a", BY_1)], text="secrets: aescbc:key1=S2")
    rewrite(book, "51_isnt_kept_by_format_1", [sealed("/s", BY_1)], text="secrets: aescbc:key1=S2", form=1)
    rewrite(book, "48", [sealed("/s", BY_1)], text=PLAIN)
    rewrite(book, "48_least", [sealed("/b", BY_1), sealed("/a", BY_2), sealed("/c", IDENTITY)], text=PLAIN)
    rewrite(book, "48_before_51", [sealed("/a", BY_1), sealed("/b", BY_2)], text="secrets: aescbc:key1=S2")
    rewrite(book, "48_before_the_drive", [sealed("/a", BY_1), sealed("/b", ("aescbc", "key3", bytes(16)))])
    rewrite(book, "44", [sealed("/s", IDENTITY)], text=KMS)
    rewrite(book, "unhealthy", [sealed("/s", IDENTITY)], text="secrets: kms:p, identity", plugins=(plugin(says=("v1", "ok")),), programs=("p=prog",))
    for name, content in {"41": b"KRSTORE3", "42": TWO[:-1], "43": TWO + row_bytes(2, 2, row("/ s")), "46": TWO + row_bytes(2, 1, row("/s"))}.items():
        rewrite(book, name, content=content)
    book.case("rewrite_absent_store", rewrite_words(), files(PLAIN), b"", ((0, b""),), absent=("s",))
    book.case("rewrite_absent_configuration", rewrite_words(), (), b"", ((0, b""),), tapes=(("s", TWO),))
    for name, words in {
        "with_resource": rewrite_words() + ["--resource", "secrets"], "without_store": rewrite_words()[:3], "two_stores": rewrite_words() + ["--store", "t"],
        "without_configuration": ["rewrite", "--store", "s"],
    }.items():
        book.case(f"rewrite_words_{name}", words, files(PLAIN), b"", ((0, b""),), tapes=(("s", TWO),))
    book.case("rewrite_one_of_two", rewrite_words("t"), files(NEW), b"", ((0, IV),), tapes=(("s", TWO), ("t", TWO)))


def add_plugins(book):
    serves = {"plugins": (plugin(),), "programs": ("p=prog",)}
    both = "secrets: kms:p, identity"
    rewrite(book, "plugin_fresh", [by_plugin("/s")], text=KMS, drawn=ZEROS, **serves)
    rewrite(book, "plugin_from_plain", [sealed("/s", IDENTITY), sealed("/t", IDENTITY)], text=both, drawn=ZEROS + DRAWN + DRAWN, **serves)
    rewrite(book, "plugin_stale_key", [by_plugin("/s")], text=KMS, drawn=OTHER_SEED + DRAWN, plugins=(plugin(key_id="k2"),), programs=("p=prog",))
    rewrite(book, "plugin_other_source_is_fresh", [by_plugin("/s", source=OTHER_SOURCE, seed=OTHER_SEED)], text=KMS, drawn=ZEROS, **serves)
    rewrite(book, "plugin_is_asked_once", [by_plugin(path, source=OTHER_SOURCE, seed=OTHER_SEED) for path in ("/a", "/b", "/c")], text=KMS, drawn=ZEROS, **serves)
    rewrite(book, "plugin_type_0", [by_plugin("/s", kind=0)], text=KMS, drawn=ZEROS + DRAWN, **serves)
    rewrite(book, "plugin_to_plain", [by_plugin("/s")], text="secrets: identity, kms:p", drawn=ZEROS, **serves)
    rewrite(book, "plugin_of_another_resource", [sealed("/s", BY_1)], text=NEW + " | a: kms:p", drawn=ZEROS + DRAWS, **serves)
    for number in (1, 2, 3, 4):
        rewrite(book, f"plugin_fault_{number}", [
            by_plugin("/a"), by_plugin("/b", source=OTHER_SOURCE, seed=OTHER_SEED), sealed("/c", IDENTITY),
        ], text=both, drawn=ZEROS + DRAWN, plugins=(plugin(fails=str(number)),), programs=("p=prog",))
    rewrite(book, "plugin_fault_link", [by_plugin("/a")], text=KMS, drawn=ZEROS, fails=(("files", 4),), **serves)
    rewrite(book, "plugin_no_link", [by_plugin("/a")], text=KMS, drawn=ZEROS, programs=("p=prog",))
    rewrite(book, "plugin_fault_draw_of_a_seed", [by_plugin("/a")], text=KMS, drawn=ZEROS, fails=(("dice:0", 1),), **serves)


def add_faults(book):
    rows = [sealed("/a", BY_1), broken("/b", True), sealed("/c", BY_2), sealed("/d", BY_1)]
    for number in (1, 2, 3):
        rewrite(book, f"fault_files_{number}", rows, fails=(("files", number),))
    for number in (1, 2):
        rewrite(book, f"fault_read_{number}", rows, fails=(("reads:s", number),))
        rewrite(book, f"fault_write_{number}", rows, fails=(("writes:s", number),))
        rewrite(book, f"fault_draw_{number}", rows, fails=(("dice:0", number),))
    rewrite(book, "short_dice", rows, drawn=DRAWS[:31])
    rewrite(book, "fault_write_of_format_1", rows, form=1, fails=(("writes:s", 2),))
    book.case("rewrite_no_dice", rewrite_words(), files(NEW), b"", (), tapes=(("s", TWO),))
    for number in (1, 2, 11, 37):
        rewrite(book, f"fault_output_{number}", rows, fails=(("output", number),))
        rewrite(book, f"fault_output_{number}_of_a_cut_drive", rows, fails=(("output", number), ("writes:s", 2)))
    rewrite(book, "output_without_room", rows, room=4)
    rewrite(book, "fault_of_the_line", rows, fails=(("writes:s", 2), ("errors", 4)))
    rewrite(book, "fault_settle", rows, fails=(("settles:s", 1),))
    rewrite(book, "fault_settle_of_a_cut_drive", rows, fails=(("writes:s", 2), ("settles:s", 1)))
    rewrite(book, "stop_before_its_rows_settles_nothing", rows, fails=(("files", 3), ("settles:s", 1)))
    rewrite(book, "input_is_not_read", rows, fails=(("input", 1),))
    rewrite(book, "again_after_a_fault", rows + [sealed("/a", BY_2)])


CAUSES = {
    "words": lambda it: it.but(words=it["words"][:-1]),
    "load_fails": lambda it: it.but(fails=(("files", 1),)),
    "breach": lambda it: it.but(files=(("c.json", "{}"),)),
    "44": lambda it: it.but(files=files("secrets: aescbc:key1=S1 | a: kms:p")),
    "lend_fails": lambda it: it.but(fails=(("files", 2),)),
    "scan_fails": lambda it: it.but(fails=(("reads:s", 2),)),
    "torn": lambda it: it.but(tapes=(("s", it["tapes"][0][1][:-1]),)),
    "dice_fails": lambda it: it.but(fails=(("files", 3),)),
    "stray": lambda it: it.but(tapes=(("s", written(2, [sealed("/s", BY_1), sealed("/t", GCM)])),)),
    "draw_fails": lambda it: it.but(fails=(("dice:0", 1),)),
    "write_fails": lambda it: it.but(fails=(("writes:s", 1),)),
    "output_fails": lambda it: it.but(fails=(("output", 1),)),
    "errors_fail": lambda it: it.but(fails=(("errors", 1),)),
}


def add_pairs(book):
    plain = Causes(words=rewrite_words(), files=files(NEW), data=b"", dice=((0, IV),), fails=(), tapes=(("s", written(2, [sealed("/s", BY_1)])),))
    for (one, first), (other, second) in itertools.combinations(CAUSES.items(), 2):
        book.case(f"pair_rewrite_{one}_{other}", **first(second(plain)))


def add_all(book):
    book.title("rewrite")
    add_rewrites(book)
    add_left(book)
    add_refusals(book)
    add_plugins(book)
    add_faults(book)
    book.title("pairs of causes of rewrite")
    add_pairs(book)
