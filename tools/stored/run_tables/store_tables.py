"""Stores: their files, what is listed of them, and what is judged by them."""

import base64

from reference.store import Row, row_bytes, written
from reference.values import MARK, check_of, prefix

from .form import SECRETS, config, spell

CHECK = bytes(range(8))
HI = Row(b"/s", b"secrets", b"hi", bytes(8))
ONE = bytes.fromhex("4b5253544f52453101000000000000000100022f730007736563726574730000000" + "26869")
TWO = written(2, [HI])


def put(path, value=b"hi", resource="secrets", check=CHECK):
    return Row(path.encode(), resource.encode(), value, check)


def delete(path):
    return Row(path.encode())


def listed(book, name, content, **more):
    book.case(name, ["list", "--store", "s"], tapes=(("s", content),), **more)


def add_files(book):
    listed(book, "list_of_format_1", ONE)
    listed(book, "list_of_format_2", TWO)
    listed(book, "list_empty", b"")
    for form in (1, 2):
        listed(book, f"list_bare_magic_{form}", written(form, []))
        for size in range(1, 36 if form == 1 else 44):
            listed(book, f"list_format_{form}_cut_to_{size}", (ONE if form == 1 else TWO)[:size])
    listed(book, "list_41_other_name", b"KRSTORF")
    listed(book, "list_41_format_3", b"KRSTORE3")
    listed(book, "list_41_text", b"hello, this is no store")
    for at in range(8, 36):
        listed(book, f"list_format_1_altered_at_{at}", ONE[:at] + bytes([ONE[at] ^ 0x80]) + ONE[at + 1 :])
    for at in range(8, 44):
        listed(book, f"list_format_2_altered_at_{at}", TWO[:at] + bytes([TWO[at] ^ 0x01]) + TWO[at + 1 :])
    listed(book, "list_43_kind_3", ONE[:8] + b"\3" + ONE[9:])
    listed(book, "list_43_delete_of_nothing", written(2, [delete("/s")]))
    listed(book, "list_43_delete_twice", written(2, [HI, delete("/s"), delete("/s")]))
    listed(book, "list_43_second_row", TWO + row_bytes(2, 2, put("/ s")))
    listed(book, "list_46_second_row", TWO + row_bytes(2, 1, HI))
    listed(book, "list_46_before_its_path", TWO + row_bytes(2, 3, put("/ s")))
    listed(book, "list_43_value_above", ONE[:30] + (2_162_689).to_bytes(4, "big") + b"hi")
    listed(book, "list_42_value_of_the_limit_cut", ONE[:30] + (2_162_688).to_bytes(4, "big") + b"hi")


def add_listings(book):
    listed(book, "list_tags", written(2, [
        put("/plain"), put("/begin", b"k8s:enc"), put("/mark", MARK), put("/cbc", prefix(("aescbc", "key1")) + b"x"),
        put("/gcm", prefix(("aesgcm", "g")) + b"x"), put("/kms", prefix(("kms", "p"))), put("/strange", MARK + b"x"),
        put("/version", b"k8s:enc:aescbc:v2:key1:x"), put("/open", b"k8s:enc:aescbc:v1:key1"), put("/empty", b""),
    ]))
    listed(book, "list_by_paths", written(1, [put("/b"), put("/a/b"), put("/a"), put("/B"), put("/a!"), put("!"), put("~"), put("/a")]))
    listed(book, "list_deleted", written(2, [HI, put("/t"), delete("/s")]))
    listed(book, "list_deleted_all", written(2, [HI, delete("/s")]))
    listed(book, "list_put_again", written(2, [HI, delete("/s"), put("/s", b"k8s:enc:x"), put("/s")]))
    listed(book, "list_resources", written(2, [put("/a", resource="deployments.apps"), put("/b", resource="secrets")]))
    listed(book, "list_longest", written(2, [put("/" * 1024, resource="r" * 253), put("/s", bytes(70_000))]))
    listed(book, "list_many", written(2, [put(f"/registry/{number * 7919 % 1000}") for number in range(1000)]))


def add_faults(book):
    book.case("list_absent", ["list", "--store", "s"])
    book.case("list_absent_foreign", ["list", "--store=s\t\u00e9"], tapes=(("s", TWO),))
    book.case("list_absent_empty_name", ["list", "--store="])
    book.case("list_of_a_file_of_the_world", ["list", "--store", "c.json"], files=(("c.json", spell("{}")),))
    book.case("list_other_tape", ["list", "--store", "t"], tapes=(("s", ONE), ("t", TWO)))
    listed(book, "list_fault_files", TWO, fails=(("files", 1),))
    listed(book, "list_fault_length", TWO, fails=(("reads:s", 1),))
    listed(book, "list_fault_read", TWO, fails=(("reads:s", 2),))
    listed(book, "list_fault_before_41", b"KRSTORE3", fails=(("reads:s", 2),))
    listed(book, "list_empty_is_not_read", b"", fails=(("reads:s", 2),))
    listed(book, "list_fault_output", TWO, fails=(("output", 3),))
    listed(book, "list_output_without_room", TWO, room=5)
    listed(book, "list_fault_of_the_line", b"KRSTORE3", fails=(("errors", 4),))


OLD = "secrets: aescbc:key1=S1, identity"
BOTH = "secrets: aescbc:key1=S1, aescbc:key2=S2, identity"
NEW = "secrets: aescbc:key2=S2, aescbc:key1=S1, identity"
LAST = "secrets: aescbc:key2=S2, identity"
PLAIN = "secrets: identity"
GROUPS = "*.apps: aesgcm:g=Z16, identity | *.*: identity"
REST = "*.*: aesgcm:g=Z16, identity"
TWICE = "secrets: identity, identity"


def sealed(path, provider, resource="secrets", check=None):
    """A put under a provider, `KIND:NAME=SECRET` or `identity`."""
    kind, _, rest = provider.partition(":")
    name, _, secret = rest.partition("=")
    who = (kind, name, base64.b64decode(SECRETS[secret])) if secret else (kind, name)
    value = b"hi" if kind == "identity" else prefix(who) + bytes(40)
    return put(path, value, resource, check_of(who) if check is None else check)


def judged(book, name, replicas, reload, rows=(), content=None, form=2, **more):
    """A judgement of a reload `N=CONFIGURATION`."""
    number, _, new = reload.partition("=")
    files = [(f"r{at}", config(text)) for at, text in enumerate(replicas)] + [("new", config(new))]
    words = ["judge", "--store", "s"] + [word for at in range(len(replicas)) for word in ("--replica", f"r{at}")]
    tape = written(form, list(rows)) if content is None else content
    book.case(name, words + ["--reload", f"{number}=new"], files=files, tapes=(("s", tape),), **more)


def add_judgements(book):
    key1 = "aescbc:key1=S1"
    judged(book, "judge_pass", [NEW, BOTH], f"0={BOTH}", content=b"")
    judged(book, "judge_drops_writer", [NEW, BOTH], f"0={LAST}", content=b"")
    judged(book, "judge_unread", [OLD, OLD], f"0={NEW}", content=b"")
    judged(book, "judge_alone", [OLD], f"0={LAST}", content=b"")
    judged(book, "judge_drops_stored", [OLD], f"0={LAST}", [sealed("/b", key1), sealed("/a", key1)])
    judged(book, "judge_drops_stored_before_writer", [OLD, OLD], f"0={LAST}", [sealed("/s", key1)])
    judged(book, "judge_reads_stored", [OLD], f"0={NEW}", [sealed("/s", key1), sealed("/t", "identity")])
    judged(book, "judge_deleted_is_not_needed", [OLD], f"0={LAST}", [sealed("/s", key1), delete("/s")])
    judged(book, "judge_group", [GROUPS, GROUPS], f"1={REST}", content=b"")
    judged(book, "judge_rest", [REST, REST], "1=*.*: identity, aesgcm:g=K32", content=b"")
    judged(book, "judge_other_secret_of_one_name", [OLD], "0=secrets: aescbc:key1=S2, identity", [sealed("/s", key1)])
    judged(book, "judge_48_stray", [PLAIN], f"0={PLAIN}", [sealed("/t", key1), sealed("/s", key1)])
    judged(book, "judge_48_before_51", [PLAIN], f"0={PLAIN}", [sealed("/a", "identity", check=CHECK), sealed("/s", key1)])
    judged(book, "judge_51_other_secret", [OLD], f"0={OLD}", [sealed("/t", "aescbc:key1=S2"), sealed("/s", "aescbc:key1=S2"), sealed("/a", key1)])
    judged(book, "judge_51_before_49", [PLAIN, LAST], f"0={PLAIN}", [sealed("/s", "identity", check=CHECK)])
    judged(book, "judge_format_1_keeps_no_check", [OLD], f"0={OLD}", [sealed("/s", "aescbc:key1=S2")], form=1)
    judged(book, "judge_49_drops_writer", [OLD, LAST], f"0={OLD}", content=b"")
    judged(book, "judge_49_drops_stored", [OLD, PLAIN], f"0={OLD}", [sealed("/s", key1)])
    judged(book, "judge_49_unread", [PLAIN, OLD], f"0={OLD}", content=b"")
    judged(book, "judge_49_third", [NEW, BOTH, LAST], f"0={BOTH}", content=b"")
    judged(book, "judge_16_replicas", [NEW] * 16, f"15={BOTH}", content=b"")
    judged(book, "judge_store_first", ["secrets: kms:p, kms:p", OLD], f"0={OLD}", content=b"KRSTORE3")
    judged(book, "judge_configurations_in_order", [PLAIN, "secrets: kms:p, kms:p"], f"0={TWICE}", content=b"")
    judged(book, "judge_new_configuration_before_48", [PLAIN], f"0={TWICE}", [sealed("/s", key1)])
    judged(book, "judge_plugin", ["secrets: kms:p, identity"], f"0={PLAIN}", content=b"")
    judged(book, "judge_fault_store", [PLAIN], f"0={PLAIN}", [sealed("/s", "identity")], fails=(("reads:s", 1),))
    judged(book, "judge_fault_second_file", [NEW, BOTH], f"0={BOTH}", content=b"", fails=(("files", 3),))
    judged(book, "judge_fault_new_file", [NEW, BOTH], f"0={BOTH}", content=b"", fails=(("files", 4),))
    judged(book, "judge_fault_output", [NEW, BOTH], f"0={LAST}", content=b"", fails=(("output", 2),))
    files, tapes = (("r", config(PLAIN)), ("a=b", config(PLAIN))), (("s", b""),)
    book.case("judge_absent_store", ["judge", "--store", "t", "--replica", "r", "--reload", "0=r"], files=files, tapes=tapes)
    book.case("judge_file_with_equals", ["judge", "--store", "s", "--replica", "a=b", "--reload", "0=a=b"], files=files, tapes=tapes)
    absent = ["judge", "--store", "s", "--replica", "r", "--replica", "q", "--reload", "0=x"]
    book.case("judge_absent_replica", absent, files=files, tapes=tapes)


def add_all(book):
    book.title("list")
    add_files(book)
    add_listings(book)
    add_faults(book)
    book.title("judge")
    add_judgements(book)
