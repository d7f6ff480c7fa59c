"""Values that are put into stores and read from them."""

import itertools

from reference.store import row_bytes, written
from reference.values import MARK, check_of

from .call_tables import CBC, FIPS_BLOCK, FIPS_IV, HELLO, SEALED_ZEROS, Causes, files
from .form import IV, PATH, repeated
from .plugin_tables import DRAWN, KMS, OTHER, ZEROS, plugin, value
from .store_tables import HI, ONE, TWO, delete, put as row

BARE = "secrets: identity"
KEYED = "secrets: aescbc:key1=K16, identity"
K16_CHECK = check_of(("aescbc", "key1", bytes(range(16))))


def put_words(path="/s", resource="secrets", store="s", programs=()):
    words = ["put", "--config", "c.json", "--store", store, "--resource", resource, "--path", path]
    return words + [word for program in programs for word in ("--plugin", program)]


def get_words(path="/s", store="s", programs=()):
    words = ["get", "--config", "c.json", "--store", store, "--path", path]
    return words + [word for program in programs for word in ("--plugin", program)]


def put(book, name, content=None, text=BARE, data=b"hi", drawn=IV, path="/s", resource="secrets", plugins=(), programs=(), **more):
    """A call of `put` on the tape `s`; without a content there is none."""
    held = {"absent": ("s",)} if content is None else {"tapes": (("s", content),)}
    lines = [line for it in plugins for line in it]
    book.case(f"put_{name}", put_words(path, resource, programs=programs), files(text), data, ((0, drawn),), plugins=lines, **held, **more)


def get(book, name, content, text=BARE, path="/s", drawn=b"", plugins=(), programs=(), **more):
    lines = [line for it in plugins for line in it]
    book.case(f"get_{name}", get_words(path, programs=programs), files(text), b"", ((0, drawn),), tapes=(("s", content),), plugins=lines, **more)


# ---- put


def add_puts(book):
    put(book, "new")
    put(book, "into_empty", b"")
    put(book, "into_bare_magic_1", written(1, []))
    put(book, "into_bare_magic_2", written(2, []))
    put(book, "into_format_1", ONE)
    put(book, "into_format_2", TWO)
    put(book, "another_path", TWO, path="/t")
    put(book, "behind_a_delete", written(2, [HI, delete("/s")]))
    put(book, "behind_a_hundred", written(2, [row(f"/r/{number}") for number in range(100)]), path="/r/7")
    put(book, "empty_data", data=b"")
    put(book, "longest_path_and_resource", path="/" * 1024, resource="r" * 253)
    put(book, "longer", data=repeated(70_001, b"a"), step=8192)
    put(book, "aescbc", text=KEYED, data=b"hello", drawn=FIPS_IV)
    put(book, "aescbc_keeps_its_check", TWO, text=KEYED, data=b"hello", drawn=FIPS_IV + b"more")
    put(book, "aescbc_into_format_1", ONE, text=KEYED, data=b"hello", drawn=FIPS_IV)
    put(book, "aesgcm", text="secrets: aesgcm:g=Z16", data=bytes(16), drawn=bytes(12))
    put(book, "second_entry", text="a: identity | secrets: aesgcm:g=K24 | *.: identity")
    put(book, "group", text="*.apps: aescbc:a=K24", resource="deployments.apps")
    put(book, "fallback", text="configmaps: aescbc:k=K16")
    put(book, "mark_under_aescbc", text=KEYED, data=MARK, drawn=bytes(16))
    put(book, "plugin", text=KMS, data=b"hello", drawn=ZEROS + DRAWN, plugins=(plugin(),), programs=("p=prog",))
    put(book, "plugin_into_format_1", ONE, text=KMS, data=b"hello", drawn=ZEROS + DRAWN, plugins=(plugin(),), programs=("p=prog",))
    put(book, "plugin_of_another_resource", text="secrets: aescbc:key1=K16 | a: kms:p", drawn=ZEROS + FIPS_IV, plugins=(plugin(),), programs=("p=prog",))


def add_put_refusals(book):
    put(book, "refused_13", TWO, data=b"k8s:enc:x")
    put(book, "refused_13_makes_the_store", data=MARK)
    put(book, "long_input_makes_no_store", data=repeated(2_097_153, b"a"), step=8192)
    put(book, "44_makes_no_store", text=KMS)
    put(book, "unhealthy", TWO, text=KMS, drawn=ZEROS + DRAWN, plugins=(plugin(says=("v1", "ok")),), programs=("p=prog",))
    for name, content in BROKEN.items():
        put(book, f"{name}_stays", content)
    put(book, "breach_makes_no_store", text="secrets: aescbc:a=K16+a=K16")
    book.case("put_absent_configuration", put_words(), (), b"hi", ((0, IV),), absent=("s",))
    for name, words in {
        "empty_path": put_words(path=""), "path_with_a_space": put_words(path="/ s"), "resource_in_capitals": put_words(resource="Secrets"),
        "without_store": put_words()[:3] + put_words()[5:], "without_path": put_words()[:-2], "with_to": put_words() + ["--to", "t"],
        "two_stores": put_words() + ["--store", "t"],
    }.items():
        book.case(f"put_words_{name}", words, files(BARE), b"hi", ((0, IV),), absent=("s",))
    book.case("put_store_with_equals", put_words(store="a=b"), files(BARE), b"hi", ((0, IV),), absent=("a=b",))
    book.case("put_into_one_of_two", put_words(store="t"), files(BARE), b"hi", ((0, IV),), tapes=(("s", ONE), ("t", TWO)))


BROKEN = {
    "41": b"KRSTORE3",
    "42_magic": b"KRST",
    "42": TWO[:-1],
    "43": TWO + row_bytes(2, 2, row("/ s")),
    "46": TWO + row_bytes(2, 1, HI),
}


def add_put_faults(book):
    for number in (1, 2, 3):
        put(book, f"fault_files_{number}", TWO, fails=(("files", number),))
        put(book, f"fault_files_{number}_of_a_new_store", fails=(("files", number),))
    put(book, "fault_link", TWO, text=KMS, drawn=ZEROS + DRAWN, plugins=(plugin(),), programs=("p=prog",), fails=(("files", 4),))
    put(book, "no_link", TWO, text=KMS, drawn=ZEROS + DRAWN, programs=("p=prog",))
    put(book, "fault_plugin_status", TWO, text=KMS, drawn=ZEROS + DRAWN, plugins=(plugin(fails="1"),), programs=("p=prog",))
    put(book, "fault_plugin_wrap", TWO, text=KMS, drawn=ZEROS + DRAWN, plugins=(plugin(fails="2"),), programs=("p=prog",))
    for number in (1, 2, 3):
        put(book, f"fault_input_{number}", TWO, fails=(("input", number),))
    for number in (1, 2):
        put(book, f"fault_read_{number}", TWO, fails=(("reads:s", number),))
        put(book, f"fault_draw_{number}_of_a_seed", TWO, text=KMS, drawn=ZEROS + DRAWN, plugins=(plugin(),), programs=("p=prog",), fails=(("dice:0", number),))
        put(book, f"fault_write_{number}", TWO, fails=(("writes:s", number),))
    put(book, "fault_write_of_the_first_row", b"", fails=(("writes:s", 1),))
    put(book, "fault_write_into_format_1", ONE, fails=(("writes:s", 1),))
    put(book, "fault_settle", TWO, fails=(("settles:s", 1),))
    put(book, "fault_settle_of_the_first_row", b"", fails=(("settles:s", 1),))
    put(book, "fault_settle_then_the_line", TWO, fails=(("settles:s", 1), ("errors", 4)))
    put(book, "failed_write_settles_nothing", TWO, fails=(("writes:s", 1), ("settles:s", 1)))
    put(book, "fault_draw", TWO, text=KEYED, fails=(("dice:0", 1),))
    put(book, "short_dice", TWO, text=KEYED, drawn=IV[:15])
    book.case("put_no_dice", put_words(), files(BARE), b"hi", (), tapes=(("s", TWO),))
    for number in (1, 2, 11):
        put(book, f"fault_output_{number}", fails=(("output", number),))
    put(book, "output_without_room", TWO, room=4)
    put(book, "fault_of_the_line", b"KRSTORE3", fails=(("errors", 4),))


# ---- get


def sealed(value, resource="secrets", check=K16_CHECK):
    return written(2, [row("/s", value, resource, check)])


def add_gets(book):
    get(book, "fresh", TWO)
    get(book, "format_1", ONE)
    get(book, "absent", TWO, path="/t")
    get(book, "absent_in_empty", b"")
    get(book, "absent_in_bare_magic", written(1, []))
    get(book, "absent_beside_longer", written(2, [row("/s/t"), row("/")]))
    get(book, "deleted", written(2, [HI, delete("/s")]))
    get(book, "put_again", written(2, [HI, delete("/s"), row("/s", b"again")]))
    get(book, "last_of_two", written(2, [HI, row("/t"), row("/s", b"later")]))
    get(book, "empty", written(2, [row("/s", b"")]))
    get(book, "aescbc", sealed(HELLO), text=KEYED)
    get(book, "aescbc_of_format_1", written(1, [row("/s", HELLO)]), text=KEYED)
    get(book, "other_check_is_not_looked_at", sealed(HELLO, check=bytes(8)), text=KEYED)
    get(book, "stale_plain", TWO, text=KEYED)
    get(book, "stale_second_key", sealed(HELLO), text="secrets: aescbc:a=K32+key1=K16")
    get(book, "by_the_resource_of_its_row", sealed(HELLO, "configmaps"), text="secrets: identity | configmaps: aescbc:key1=K16")
    get(book, "aesgcm_at_another_path", sealed(SEALED_ZEROS), text="secrets: aesgcm:g=Z16")
    get(book, "longest_path", written(2, [row("/" * 1024)]), path="/" * 1024)


def add_get_refusals(book):
    get(book, "refused_12", sealed(HELLO))
    get(book, "refused_12_other_name", sealed(HELLO), text="secrets: aescbc:key2=K16")
    get(book, "refused_1", sealed(CBC + FIPS_IV[:15]), text=KEYED)
    get(book, "refused_2", sealed(CBC + FIPS_IV + FIPS_BLOCK[:15]), text=KEYED)
    get(book, "refused_3", sealed(HELLO), text="secrets: aescbc:key1=Z16")
    get(book, "refused_4", sealed(SEALED_ZEROS), text="secrets: aesgcm:g=K16")
    get(book, "44_before_the_store", b"KRSTORE3", text=KMS)
    for name, content in BROKEN.items():
        get(book, name, content)
    book.case("get_absent_store", get_words(), files(BARE), b"", ((0, b""),), absent=("s",))
    book.case("get_absent_configuration", get_words(), (), b"", ((0, b""),), tapes=(("s", TWO),))
    for name, words in {
        "empty_path": get_words(path=""), "with_resource": get_words() + ["--resource", "secrets"], "without_store": get_words()[:3] + get_words()[5:],
    }.items():
        book.case(f"get_words_{name}", words, files(BARE), b"", ((0, b""),), tapes=(("s", TWO),))


def add_get_plugins(book):
    """The value is looked up before a plugin is asked."""
    stored = written(2, [row(PATH, value(), check=bytes(8))])

    def by(name, *plugins, content=stored, path=PATH, drawn=OTHER, **more):
        get(book, f"plugin_{name}", content, KMS, path, drawn, plugins or (plugin(),), ("p=prog",), **more)

    by("fresh")
    by("fresh_by_the_published_seed", drawn=ZEROS)
    by("stale_after_another_key", plugin(key_id="k2"))
    by("not_named_by_the_resource", content=written(2, [row(PATH, b"hi")]))
    by("absent_before_45", plugin(says=("v1", "ok")), path="/t")
    by("45", plugin(says=("v1", "ok")))
    by("42_before_45", plugin(says=("v1", "ok")), content=stored[:-1])
    by("refused_4", content=written(2, [row("/s", value(), check=bytes(8))]), path="/s")
    by("without_a_seed", drawn=OTHER[:31])
    by("link_fails", fails=(("files", 4),))
    for number in (1, 2, 3):
        by(f"fault_{number}", plugin(fails=str(number)))


def add_get_faults(book):
    for number in (1, 2, 3):
        get(book, f"fault_files_{number}", TWO, fails=(("files", number),))
    for number in (1, 2):
        get(book, f"fault_read_{number}", TWO, fails=(("reads:s", number),))
        get(book, f"fault_output_{number}", TWO, fails=(("output", number),))
    get(book, "absent_before_dice", TWO, path="/t", fails=(("files", 3),))
    get(book, "fault_of_the_line", TWO, path="/t", fails=(("errors", 2),))
    get(book, "input_is_not_read", TWO, fails=(("input", 1),))
    book.case("get_no_dice", get_words(), files(BARE), b"", (), tapes=(("s", TWO),))


# ---- pairs of causes, in the order of the steps

SHARED = {
    "words": lambda it: it.but(words=it["words"][:-1]),
    "load_fails": lambda it: it.but(fails=(("files", 1),)),
    "breach": lambda it: it.but(files=(("c.json", "{}"),)),
    "44": lambda it: it.but(files=files("secrets: identity | a: kms:p")),
}
STORE = {
    "lend_fails": lambda it: it.but(fails=(("files", 2),)),
    "scan_fails": lambda it: it.but(fails=(("reads:s", 2),)),
    "torn": lambda it: it.but(tapes=(("s", it["tapes"][0][1][:-1]),)),
}
ENDS = {
    "output_fails": lambda it: it.but(fails=(("output", 1),)),
    "errors_fail": lambda it: it.but(fails=(("errors", 1),)),
}
CAUSES = {
    "put": {
        **SHARED,
        "input_fails": lambda it: it.but(fails=(("input", 1),)),
        **STORE,
        "dice_fails": lambda it: it.but(fails=(("files", 3),)),
        "refused": lambda it: it.but(data=MARK),
        "write_fails": lambda it: it.but(fails=(("writes:s", 1),)),
        **ENDS,
    },
    "get": {
        **SHARED,
        **STORE,
        "no_row": lambda it: it.but(words=it["words"][:-1] + ["/t"]),
        "dice_fails": lambda it: it.but(fails=(("files", 3),)),
        "refused": lambda it: it.but(tapes=(("s", sealed(HELLO)),)),
        **ENDS,
    },
}


def add_pairs(book):
    for command, causes in CAUSES.items():
        words = put_words() if command == "put" else get_words()
        plain = Causes(words=words, files=files(BARE), data=b"hi", dice=((0, IV),), fails=(), tapes=(("s", TWO),))
        for (one, first), (other, second) in itertools.combinations(causes.items(), 2):
            book.case(f"pair_{command}_{one}_{other}", **first(second(plain)))


def add_all(book):
    book.title("put")
    add_puts(book)
    add_put_refusals(book)
    add_put_faults(book)
    book.title("get")
    add_gets(book)
    add_get_refusals(book)
    add_get_plugins(book)
    add_get_faults(book)
    book.title("pairs of causes of put and get")
    add_pairs(book)
