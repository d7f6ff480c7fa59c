"""Stores of the first format that are copied into new ones of the second."""

import itertools

from reference.store import row_bytes, written
from reference.values import MARK

from .call_tables import CBC, GCM, HELLO, SEALED_ZEROS, Causes, files
from .store_tables import HI, ONE, TWO, delete, put as row
from .stored_tables import BARE, BROKEN, KEYED


def migrate_words(store="s", to="t"):
    return ["migrate", "--config", "c.json", "--store", store, "--to", to]


def migrate(book, name, content=None, rows=(), text=BARE, target=None, **more):
    """A call of `migrate` from the tape `s` to `t`; without a content there are these rows, and without a target there is none."""
    tapes = [("s", written(1, list(rows)) if content is None else content)]
    held = {"absent": ("t",)} if target is None else {}
    book.case(f"migrate_{name}", migrate_words(), files(text), b"", (), tapes=(*tapes, *((("t", target),) if target is not None else ())), **held, **more)


ROWS = [row("/a", HELLO), row("/b"), delete("/a"), row("/c", SEALED_ZEROS), row("/a", MARK + b"x")]
ALL = "secrets: aescbc:key1=K16, aesgcm:g=Z16, identity"


def add_migrations(book):
    migrate(book, "hi", ONE)
    migrate(book, "hi_into_empty", ONE, target=b"")
    migrate(book, "hi_again", ONE, target=TWO)
    migrate(book, "from_format_2", TWO)
    migrate(book, "empty", b"")
    migrate(book, "bare_magic_1")
    migrate(book, "bare_magic_1_into_empty", target=b"")
    migrate(book, "bare_magic_2", written(2, []))
    migrate(book, "keeps_the_check_of_its_reader", rows=[row("/s", HELLO)], text=KEYED)
    migrate(book, "check_of_the_second_key", rows=[row("/s", HELLO)], text="secrets: aescbc:a=K32+key1=K16")
    migrate(book, "check_of_aesgcm", rows=[row("/s", SEALED_ZEROS)], text=ALL)
    migrate(book, "check_of_no_provider", rows=[row("/s", HELLO)])
    migrate(book, "check_of_a_strange_value", rows=[row("/s", MARK + b"x")], text=ALL)
    migrate(book, "check_of_a_prefix_alone", rows=[row("/s", CBC), row("/t", GCM)], text=ALL)
    migrate(book, "check_of_a_plugin", rows=[row("/s", b"k8s:enc:kms:v2:p:x")], text="secrets: kms:p")
    migrate(book, "check_by_the_resource", rows=[row("/s", HELLO), row("/t", HELLO, "pods"), row("/u", HELLO, "a.b")],
            text="secrets: aescbc:key1=K16 | *.b: aescbc:key1=K32")
    migrate(book, "all", rows=ROWS, text=ALL)
    migrate(book, "deletes", rows=[HI, delete("/s"), HI, delete("/s"), row("/t")])
    migrate(book, "deletes_all", rows=[HI, delete("/s")])
    migrate(book, "empty_value", rows=[row("/s", b"")])
    migrate(book, "longest_path_and_resource", rows=[row("/" * 1024, resource="r" * 253)])
    migrate(book, "largest_value", rows=[row("/s", bytes(2_162_688))], step=8192)
    migrate(book, "hundred", rows=[row(f"/r/{number * 37 % 70}", b"%d" % number) for number in range(100)])
    migrate(book, "of_no_plugin", rows=[HI], text="secrets: identity | a: kms:p")


def add_refusals(book):
    for name, content in BROKEN.items():
        migrate(book, name, content.replace(b"KRSTORE2", b"KRSTORE1") if name == "42_magic" else content)
    migrate(book, "42_of_format_1", ONE[:-1])
    migrate(book, "43_of_format_1", ONE + row_bytes(1, 2, delete("/t")))
    migrate(book, "46_of_format_1", ONE + row_bytes(1, 1, HI))
    for name, content in {"magic": b"KRSTORE2", "text": b"x", "format_1": ONE, "torn": ONE[:-1]}.items():
        migrate(book, f"52_{name}", ONE, target=content)
    migrate(book, "53_before_52", TWO, target=TWO)
    migrate(book, "53_before_the_target", TWO, fails=(("files", 3),))
    migrate(book, "breach_makes_no_store", ONE, text="secrets: aescbc:a=K16+a=K16")
    book.case("migrate_absent_store", migrate_words(), files(BARE), b"", (), absent=("s", "t"))
    book.case("migrate_absent_configuration", migrate_words(), (), b"", (), tapes=(("s", ONE),), absent=("t",))
    for name, words in {
        "same_names": migrate_words(to="s"), "without_to": migrate_words()[:-2], "without_store": migrate_words()[:3] + migrate_words()[5:],
        "without_configuration": migrate_words()[:1] + migrate_words()[3:], "two_targets": migrate_words() + ["--to", "u"],
        "with_plugin": migrate_words() + ["--plugin", "p=prog"], "with_path": migrate_words() + ["--path", "/s"], "empty_value": migrate_words()[:-1],
        "same_names_with_equals": ["migrate", "--to=s", "--config=c.json", "--store=s"],
    }.items():
        book.case(f"migrate_words_{name}", words, files(BARE), b"", (), tapes=(("s", ONE),), absent=("t",))
    book.case("migrate_words_empty_name", migrate_words(to=""), files(BARE), b"", (), tapes=(("s", ONE),), absent=("",))
    book.case("migrate_names_with_equals", ["migrate", "--store=s", "--to=t=u", "--config=c.json"], files(BARE), b"", (), tapes=(("s", ONE),), absent=("t=u",))
    book.case("migrate_foreign_name", migrate_words(store="s\t"), files(BARE), b"", (), absent=("t",))


def add_faults(book):
    for number in (1, 2, 3):
        migrate(book, f"fault_files_{number}", ONE, fails=(("files", number),))
        migrate(book, f"fault_read_{number}", ONE, target=b"", fails=(("reads:s", number),))
        migrate(book, f"fault_target_read_{number}", ONE, target=b"", fails=(("reads:t", number),))
    for number in range(1, 7):
        migrate(book, f"fault_write_{number}", rows=ROWS, text=ALL, target=b"", fails=(("writes:t", number),))
    migrate(book, "fault_target_of_a_torn_store", ONE, target=ONE[:-1], fails=(("reads:t", 1),))
    for number in (1, 2, 11):
        migrate(book, f"fault_output_{number}", ONE, fails=(("output", number),))
    migrate(book, "output_without_room", rows=ROWS, text=ALL, room=4)
    migrate(book, "fault_of_the_line", TWO, fails=(("errors", 4),))
    migrate(book, "input_is_not_read", ONE, fails=(("input", 1),))
    migrate(book, "source_is_not_written", rows=ROWS, text=ALL, fails=(("writes:s", 1),))
    migrate(book, "source_is_not_settled", rows=ROWS, text=ALL, fails=(("settles:s", 1),))
    migrate(book, "fault_settle", rows=ROWS, text=ALL, target=b"", fails=(("settles:t", 1),))
    migrate(book, "failed_write_settles_nothing", rows=ROWS, text=ALL, target=b"", fails=(("writes:t", 2), ("settles:t", 1)))


CAUSES = {
    "words": lambda it: it.but(words=it["words"][:-1]),
    "load_fails": lambda it: it.but(fails=(("files", 1),)),
    "breach": lambda it: it.but(files=(("c.json", "{}"),)),
    "lend_fails": lambda it: it.but(fails=(("files", 2),)),
    "scan_fails": lambda it: it.but(fails=(("reads:s", 2),)),
    "torn": lambda it: it.but(tapes=(("s", it["tapes"][0][1][:-1]), it["tapes"][1])),
    "new": lambda it: it.but(tapes=(("s", TWO), it["tapes"][1])),
    "target_fails": lambda it: it.but(fails=(("files", 3),)),
    "length_fails": lambda it: it.but(fails=(("reads:t", 1),)),
    "filled": lambda it: it.but(tapes=(it["tapes"][0], ("t", b"x"))),
    "load_of_the_target_fails": lambda it: it.but(fails=(("reads:t", 2),)),
    "write_fails": lambda it: it.but(fails=(("writes:t", 1),)),
    "output_fails": lambda it: it.but(fails=(("output", 1),)),
    "errors_fail": lambda it: it.but(fails=(("errors", 1),)),
}


def add_pairs(book):
    plain = Causes(words=migrate_words(), files=files(BARE), data=b"", dice=(), fails=(), tapes=(("s", ONE), ("t", b"")))
    for (one, first), (other, second) in itertools.combinations(CAUSES.items(), 2):
        book.case(f"pair_migrate_{one}_{other}", **first(second(plain)))


def add_all(book):
    book.title("migrate")
    add_migrations(book)
    add_refusals(book)
    add_faults(book)
    book.title("pairs of causes of migrate")
    add_pairs(book)
