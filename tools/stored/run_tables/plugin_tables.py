"""Calls over plugins in memory: their statuses, seeds and faults, and the values that are sealed with them."""

import itertools
import random

from reference.outside import Numbered
from reference.plugins import INFO, SALT, SEED, Plugin, expanded, object_bytes, seal
from reference.values import MARK, NONCE, prefix, seal_gcm

from .call_tables import HELLO, Causes, altered, files
from .form import IV, PATH, object_words, repeated, spell

KMS = "secrets: kms:p"
# a published seed of zeros, its source by a plugin of key id k1 and salt 1, and what is drawn to seal
ZEROS = bytes(SEED)
SOURCE = bytes([0x9D]) * SEED
NOTE = {SALT: b"\x01"}
DRAWN = bytes([0x11]) * INFO + bytes([0x22]) * NONCE
# a seed that no value here is sealed with
OTHER = bytes([0x44]) * SEED


def plugin(name="p", key_id="k1", salt=1, says=None, keys=(), fails=None, seat=0):
    """The lines of a plugin; `says` is its version and health, `keys` are pairs of a call's number and a key id."""
    lines = [f"plugin {seat} {spell(name, True)} {spell(key_id, True)} {salt}"]
    if says:
        lines.append("says " + " ".join(spell(text, True) for text in says))
    lines += [f"key {number} {spell(text, True)}" for number, text in keys]
    if fails:
        lines.append(f"fails plugin {fails}")
    return lines


def call(book, name, command, text, data, drawn, plugins, programs=("p=prog",), path=PATH, resource="secrets", **more):
    words = object_words(command, resource, path)
    for program in programs:
        words += ["--plugin", program]
    lines = [line for it in plugins for line in it]
    book.case(f"plugin_{command}_{name}", words, files(text), data, ((0, drawn),), plugins=lines, **more)


def encrypt(book, name, *plugins, text=KMS, data=b"hello", drawn=ZEROS + DRAWN, **more):
    call(book, name, "encrypt", text, data, drawn, plugins or (plugin(),), **more)


def decrypt(book, name, value, *plugins, text=KMS, drawn=OTHER, **more):
    call(book, name, "decrypt", text, value, drawn, plugins or (plugin(),), **more)


TWO = {"text": "secrets: kms:b, kms:a", "programs": ("b=second", "a=first")}

# ---- encrypt

STATUSES = {
    "version": ("v1", "ok"),
    "version_empty": ("", "ok"),
    "version_longer": ("v2 ", "ok"),
    "version_before_healthz": ("v1", "down"),
    "healthz": ("v2", "down"),
    "healthz_empty": ("v2", ""),
    "healthz_in_capitals": ("v2", "OK"),
    "healthz_foreign": ("v2", "caf\u00e9 \x7f\n~"),
}


def add_encrypt(book):
    encrypt(book, "hello")
    encrypt(book, "empty", data=b"", path="")
    encrypt(book, "mark", data=MARK)
    encrypt(book, "longer", data=repeated(70_001, b"a"), step=8192)
    encrypt(book, "other_salt_and_key_id", plugin(key_id="a key, \u00e9", salt=255))
    encrypt(book, "salt_0", plugin(salt=0), drawn=bytes(range(32)) + DRAWN)
    encrypt(book, "key_id_of_1024", plugin(key_id="k" * 1024))
    encrypt(book, "name_of_253", plugin("n" * 253), text=f"secrets: kms:{'n' * 253}", programs=(f"{'n' * 253}=x",))
    encrypt(book, "another_key_at_the_wrap", plugin(keys=((2, "k2"),)))
    encrypt(book, "program_with_equals", programs=("p=a=b",))
    encrypt(book, "programs_not_named", programs=("o=x", "p=prog", "q=y"))
    # a status that breaks a rule
    for name, says in STATUSES.items():
        encrypt(book, f"unhealthy_{name}", plugin(says=says))
    encrypt(book, "unhealthy_key_id_empty", plugin(key_id=""))
    encrypt(book, "unhealthy_key_id_of_1025", plugin(key_id="k" * 1025))
    encrypt(book, "unhealthy_key_id_of_513_in_1026", plugin(key_id="\u00e9" * 513))
    encrypt(book, "unhealthy_healthz_before_key_id", plugin(key_id="", says=("v2", "down")))
    # a wrap above the limits
    encrypt(book, "wrap_key_id_empty", plugin(keys=((2, ""),)))
    encrypt(book, "wrap_key_id_of_1025", plugin(keys=((2, "k" * 1025),)))
    # faults of the plugin and of the random source; a seal asks no plugin
    for numbers in ("1", "2", "3", "1 2"):
        encrypt(book, f"fault_{numbers.replace(' ', '_')}", plugin(fails=numbers))
    for size in (0, 31, 32, 75, 77):
        encrypt(book, f"dice_of_{size}", drawn=(ZEROS + DRAWN + b"more")[:size])
    for number in (1, 2, 3):
        encrypt(book, f"dice_fails_{number}", fails=(("dice:0", number),))
    add_lists(book)
    add_links(book)


def add_lists(book):
    """Every plugin of a configuration is published, by the bytes of the names, whatever the resource."""
    drawn = ZEROS + OTHER + DRAWN
    a, b = plugin("a"), plugin("b", "k2", 7)
    encrypt(book, "second_name_writes", a, b, drawn=drawn, **TWO)
    encrypt(book, "order_of_bytes", plugin("p10"), plugin("p9"), plugin("P"), text="secrets: kms:p9, kms:p10, kms:P", drawn=bytes(range(96)) + DRAWN, programs=("p9=x", "P=y", "p10=z"))
    encrypt(book, "in_two_entries", plugin(), text="secrets: kms:p | a: kms:p", drawn=drawn)
    encrypt(book, "of_another_resource", plugin(), text="secrets: aescbc:key1=K16 | a: kms:p", drawn=ZEROS + IV)
    encrypt(book, "of_another_resource_unhealthy", plugin(says=("v2", "down")), text="secrets: aescbc:key1=K16 | a: kms:p", drawn=ZEROS + IV)
    encrypt(book, "of_another_resource_faulty", plugin(fails="2"), text="secrets: identity | a: kms:p")
    encrypt(book, "not_the_writer", plugin(), text="secrets: aesgcm:g=K32, kms:p", drawn=ZEROS + IV)
    encrypt(book, "fallback", plugin(), text="a: kms:p", drawn=ZEROS)
    encrypt(book, "refused_13_by_fallback", plugin(), text="a: kms:p", data=b"k8s:enc:x", drawn=ZEROS)
    # the first by its name decides
    down = ("v2", "down")
    for first, second in itertools.product(("well", "unhealthy", "faulty", "wrap_faulty"), repeat=2):
        kinds = {"well": {}, "unhealthy": {"says": down}, "faulty": {"fails": "1"}, "wrap_faulty": {"fails": "2"}}
        if (first, second) != ("well", "well"):
            encrypt(book, f"first_{first}_second_{second}", plugin("a", **kinds[first]), plugin("b", **kinds[second]), drawn=drawn, **TWO)
    encrypt(book, "dice_of_one_seed_and_second_unhealthy", a, plugin("b", says=down), drawn=ZEROS, **TWO)
    encrypt(book, "dice_of_one_seed", a, b, drawn=ZEROS, **TWO)


def add_links(book):
    """Links that can't be made; those that were made come back."""
    encrypt(book, "link_of_another_seat", plugin(seat=1))
    encrypt(book, "link_fails", fails=(("files", 3),))
    encrypt(book, "link_call_behind_it", fails=(("files", 4),))
    a, b = plugin("a"), plugin("b")
    encrypt(book, "first_link_is_missing", b, **TWO)
    encrypt(book, "second_link_is_missing", a, **TWO)
    encrypt(book, "second_link_is_missing_first_unhealthy", plugin("a", says=("v2", "down")), **TWO)
    encrypt(book, "first_link_fails", a, b, fails=(("files", 3),), **TWO)
    encrypt(book, "second_link_fails", a, b, fails=(("files", 4),), **TWO)
    encrypt(book, "44_least_of_two", plugin("a"), plugin("b"), text=TWO["text"], programs=("c=x",))
    encrypt(book, "44_second_name", plugin("a"), plugin("b"), text=TWO["text"], programs=("a=x",))


# ---- decrypt


def sealing(data=b"hello", seed=ZEROS, path=PATH):
    """What a seed's key makes of the data, behind the info and the nonce."""
    return DRAWN + seal_gcm(expanded(seed, DRAWN[:INFO]), DRAWN[INFO:], data, path.encode())


def value(data=None, key_id=b"k1", annotations=None, source=SOURCE, kind=1, name="p"):
    body = object_bytes(sealing() if data is None else data, key_id, NOTE if annotations is None else annotations, source, kind)
    return prefix(("kms", name)) + body


def keyed(data=b"hello", path=PATH, secret=ZEROS):
    """The data by a key that is itself the unwrapped source."""
    return DRAWN[INFO:] + seal_gcm(secret, DRAWN[INFO:], data, path.encode())


def add_decrypt(book):
    decrypt(book, "fresh", value())
    decrypt(book, "fresh_by_the_published_seed", value(), drawn=ZEROS)
    decrypt(book, "stale_after_another_key", value(), plugin(key_id="k2"), drawn=ZEROS)
    decrypt(book, "stale_by_the_key_at_the_wrap", value(), plugin(keys=((2, "k2"),)))
    decrypt(book, "fresh_by_the_key_at_the_wrap", value(source=bytes([0x9E]) * SEED, key_id=b"k2"), plugin(keys=((2, "k2"),)))
    decrypt(book, "fresh_though_another_key_later", value(), plugin(keys=((3, "k2"),)))
    decrypt(book, "empty", value(sealing(b"", path="")), path="")
    decrypt(book, "longer", value(sealing(b"a" * 3000)))
    decrypt(book, "other_path", value(), path="/other")
    decrypt(book, "dice_has_more", value(), drawn=OTHER + b"more")
    # places in the list
    decrypt(book, "second_is_stale", value(), text="secrets: aescbc:key1=K16, kms:p")
    decrypt(book, "second_behind_identity", value(), text="secrets: identity, kms:p", drawn=ZEROS)
    decrypt(book, "bare_by_identity", b"hello", text="secrets: kms:p, identity")
    decrypt(book, "aescbc_behind_a_plugin", HELLO, text="secrets: kms:p, aescbc:key1=K16")
    decrypt(book, "aescbc_before_a_plugin", HELLO, text="secrets: aescbc:key1=K16 | a: kms:p")
    decrypt(book, "12_plugin_of_another_resource", value(), text="secrets: identity | a: kms:p", drawn=ZEROS)
    decrypt(book, "12_other_name", value(name="q"), drawn=ZEROS)
    decrypt(book, "12_no_name", b"k8s:enc:kms:v2:p", drawn=ZEROS)
    # a published seed stands for its own name, key id, annotations and source
    decrypt(book, "published_but_for_the_key_id", value(key_id=b"l0"), drawn=ZEROS)
    decrypt(book, "published_but_for_an_annotation", value(annotations={**NOTE, b"a.io": b""}), drawn=ZEROS)
    decrypt(book, "published_but_for_the_salt", value(annotations={SALT: b"\x02"}), drawn=ZEROS)
    decrypt(book, "published_but_for_the_salt_s_bytes", value(annotations={SALT: b"\x00\x01"}), drawn=ZEROS)
    decrypt(book, "published_without_annotations", value(annotations={}), drawn=ZEROS)
    decrypt(book, "published_but_for_the_source", value(source=altered(SOURCE, 31)), drawn=ZEROS)
    decrypt(book, "published_of_another_name", value(name="q"), plugin(), plugin("q"), text="secrets: kms:p, kms:q", drawn=ZEROS + OTHER, programs=("p=x", "q=y"))
    decrypt(book, "published_of_the_second_name", value(name="q"), plugin(), plugin("q"), text="secrets: kms:q, kms:p", drawn=OTHER + ZEROS, programs=("p=x", "q=y"))
    decrypt(book, "written_in_another_order", prefix(("kms", "p")) + shuffled(), drawn=ZEROS)
    # one bit is another
    whole = value()
    for at in (19, 51, 63, 70, 83):
        decrypt(book, f"altered_at_{at}", altered(whole, at))
    add_kinds(book)
    add_refusals(book)
    add_faults(book)


def shuffled():
    """The object with its fields the other way round, a key id and an annotation that count no more, and an unknown field."""
    whole = value()[len(prefix(("kms", "p"))) :]
    data, rest = whole[:67], whole[67:]
    key_id, source, note, kind = rest[:4], rest[4:38], rest[38:62], rest[62:]
    return kind + b"\x12\x01x" + note.replace(b"\x12\x01\x01", b"\x12\x01\x07") + note + source + b"\x30\x07" + key_id + data


def add_kinds(book):
    """A source that is itself a key, and the lengths of bodies and of unwrapped sources."""
    empty = bytes(NONCE) + bytes.fromhex("530f8afbc74536b9a963b4f1c4cb738b")
    decrypt(book, "key_of_zeros", value(empty, kind=0), path="", drawn=ZEROS)
    decrypt(book, "key_of_zeros_by_the_link", value(empty, kind=0), path="")
    decrypt(book, "key", value(keyed(), kind=0))
    decrypt(book, "key_told_as_0", value(keyed(), kind=0) + b"\x28\x00")
    decrypt(book, "key_behind_identity", value(keyed(), kind=0), text="secrets: identity, kms:p")
    decrypt(book, "key_at_another_path", value(keyed(), kind=0), path="/other")
    decrypt(book, "key_read_as_a_seed", value(keyed(b"hello" * 9)))
    decrypt(book, "seed_read_as_a_key", value(kind=0))
    for kind, size in itertools.product((0, 1), (1, 27, 28, 59, 60)):
        decrypt(book, f"kind_{kind}_body_of_{size}", value(bytes(size), kind=kind))
    decrypt(book, "kind_1_body_of_60_that_opens", value(sealing(b"")))
    for kind, size in itertools.product((0, 1), (1, 16, 31, 33, 1024)):
        decrypt(book, f"kind_{kind}_source_of_{size}", value(keyed() if kind == 0 else None, source=bytes([0x9D]) * size, kind=kind))


def add_refusals(book):
    """The object's own refusals come before the plugin is asked, and that of the seed's length before the body's."""
    front = prefix(("kms", "p"))
    whole = value()[len(front) :]
    for name, body in {
        "5_wire": whole + b"\x0f",
        "5_cut": whole[:-1],
        "11_key_id": whole.replace(b"\x12\x02k1", b"\x12\x02\xc3\x28"),
        "11_annotation": whole + b"\x22\x06\x0a\x01\xff\x12\x01\x01",
        "10_no_data": value(b"")[len(front) :],
        "6_no_key_id": value(key_id=b"")[len(front) :],
        "6_key_id_of_1025": value(key_id=b"k" * 1025)[len(front) :],
        "7_no_source": value(source=b"")[len(front) :],
        "7_source_of_1025": value(source=bytes(1025))[len(front) :],
        "8_annotations": value(annotations={**NOTE, b"a": bytes(32_768)})[len(front) :],
        "9_kind_3": value(kind=3)[len(front) :],
    }.items():
        decrypt(book, f"refused_{name}", front + body, plugin(fails="3"))
    for kind in (0, 1):
        short = value(bytes(27), source=SOURCE[:-1], kind=kind)
        decrypt(book, f"kind_{kind}_refused_15_before_1", short)
        decrypt(book, f"kind_{kind}_plugin_fails_before_15", short, plugin(fails="3"))
        decrypt(book, f"kind_{kind}_plugin_fails_before_1", value(bytes(27), kind=kind), plugin(fails="3"))
        decrypt(book, f"kind_{kind}_plugin_fails_before_4", value(bytes(61), kind=kind), plugin(fails="3"))


def add_faults(book):
    for numbers in ("1", "2", "3", "4", "2 3", "1 2 3"):
        decrypt(book, f"fault_{numbers.replace(' ', '_')}", value(), plugin(fails=numbers))
    decrypt(book, "no_fault_where_it_is_published", value(), plugin(fails="3"), drawn=ZEROS)
    decrypt(book, "no_fault_where_another_reads", HELLO, plugin(fails="3"), text="secrets: kms:p, aescbc:key1=K16")
    decrypt(book, "fault_of_the_second_name", value(name="q"), plugin(), plugin("q", fails="3"), text="secrets: kms:p, kms:q", drawn=OTHER + OTHER, programs=("p=x", "q=y"))
    decrypt(book, "unhealthy", value(), plugin(says=("v2", "down")))
    decrypt(book, "unhealthy_of_another_resource", HELLO, plugin(key_id=""), text="secrets: aescbc:key1=K16 | a: kms:p")
    decrypt(book, "dice_of_31", value(), drawn=OTHER[:31])
    decrypt(book, "dice_fails_1", value(), fails=(("dice:0", 1),))
    decrypt(book, "dice_fails_2", value(), fails=(("dice:0", 2),))
    decrypt(book, "link_fails", value(), fails=(("files", 3),))
    decrypt(book, "second_link_is_missing", value(), plugin("a"), **TWO)
    decrypt(book, "first_unhealthy_second_faulty", value(), plugin("a", says=("v2", "down")), plugin("b", fails="1"), **TWO)
    decrypt(book, "first_faulty_second_unhealthy", value(), plugin("a", fails="1"), plugin("b", says=("v2", "down")), **TWO)


# ---- pairs of causes: the earlier step decides


def but_plugin(it, fails=None, **changes):
    """The call with a plugin that differs so; where there is none, it stays away."""
    told = it["plugin"]
    if told is None:
        return it
    if fails:
        changes["fails"] = f"{told.get('fails', '')} {fails}".strip()
    return it.but(plugin={**told, **changes})


SHARED = {
    "words": ("words", lambda it: it.but(words=it["words"][:-1])),
    "absent": ("file", lambda it: it.but(files=())),
    "breach": ("file", lambda it: it.but(files=(("c.json", "{}"),))),
    "no_program": ("words", lambda it: it.but(words=it["words"][:-2])),
    "input_fails": ("input call", lambda it: it.but(fails=(("input", 2),))),
    "no_dice": ("dice", lambda it: it.but(dice=())),
    "no_link": ("plugin", lambda it: it.but(plugin=None)),
    "status_fails": ("status", lambda it: but_plugin(it, fails="1")),
    "unhealthy": ("status", lambda it: but_plugin(it, says=("v2", "down"))),
    "draw_fails": ("draw", lambda it: it.but(fails=(("dice:0", 1),))),
    "wrap_fails": ("wrap", lambda it: but_plugin(it, fails="2")),
}
LAST = {
    "output_fails": ("output", lambda it: it.but(fails=(("output", 1),))),
    "errors_fail": ("errors", lambda it: it.but(fails=(("errors", 1),))),
}
CAUSES = {
    "encrypt": {
        **SHARED,
        "second_draw_fails": ("writer", lambda it: it.but(fails=(("dice:0", 2),))),
        "refused": ("writer", lambda it: it.but(data=b"k8s:enc:x", files=it["files"] and files("secrets: identity | a: kms:p"))),
        **LAST,
    },
    "decrypt": {
        **SHARED,
        "no_reader": ("value", lambda it: it.but(data=value(name="q"))),
        "no_object": ("value", lambda it: it.but(data=value(kind=2))),
        "unwrap_fails": ("unwrap", lambda it: but_plugin(it, fails="3")),
        "seed_length": ("value", lambda it: it.but(data=value(source=SOURCE[:-1]))),
        "bad_tag": ("value", lambda it: it.but(data=altered(value(), 70))),
        **LAST,
    },
}
# pairs without any of these stand among the calls that have no plugin
OF_CALLS = {"status_fails", "unhealthy", "wrap_fails", "unwrap_fails"}
OF_PLUGINS = {*OF_CALLS, "no_link", "draw_fails", "second_draw_fails", "no_object", "seed_length"}


def plain_call(command):
    return Causes(
        words=object_words(command) + ["--plugin", "p=prog"],
        files=files(KMS),
        data=b"hello" if command == "encrypt" else value(),
        dice=((0, ZEROS + DRAWN if command == "encrypt" else OTHER),),
        plugin={},
        fails=(),
    )


def add_pairs(book):
    for command, causes in CAUSES.items():
        for (first, (part, change)), (second, (other, change_other)) in itertools.combinations(causes.items(), 2):
            if part == other or not OF_PLUGINS & {first, second} or (first == "no_link" and second in OF_CALLS):
                continue
            # the later cause first, so that what the earlier one takes away stays away
            it = change(change_other(plain_call(command)))
            lines = plugin(**it["plugin"]) if it["plugin"] is not None else ()
            book.case(f"plugin_pair_{command}_{first}_{second}", it["words"], it["files"], it["data"], it["dice"], it["fails"], plugins=lines)


# ---- random calls


def random_plugin(chance, name):
    return {"name": name, "key_id": chance.choice(("k1", "k2", "l0")), "salt": chance.choice((0, 1, 200))}


def random_value(chance, told, seed, data, path):
    """A value of the data with a seed that is wrapped by a plugin of which so much is told; sometimes altered or cut."""
    link = Plugin(told["name"], told["key_id"], told["salt"], ("v2", "ok"), {}, Numbered("", ()))
    made = seal({told["name"]: (link.wrap(seed), seed)}, told["name"], path.encode(), data, chance.randbytes)
    pick = chance.random()
    if pick < 0.2:
        return altered(made, chance.randrange(len(made)), 1 << chance.randrange(8))
    return made[: chance.randrange(len(made))] if pick < 0.3 else made


def add_random(book, count, seed):
    chance = random.Random(seed)
    for number in range(count):
        names = chance.sample(("p", "q", "pq"), chance.randint(1, 3))
        told = [random_plugin(chance, name) for name in names]
        others = chance.sample(("identity", "aescbc:key1=K16"), chance.randint(0, 2))
        providers = [f"kms:{name}" for name in names] + others
        chance.shuffle(providers)
        text = f"secrets: {', '.join(providers)}"
        seeds = [chance.choice((ZEROS, OTHER)) for _ in names]
        data = chance.randbytes(chance.choice((0, 1, 16, 40)))
        more = {"text": text, "programs": [f"{name}=to-{name}" for name in names]}
        plugins = [plugin(**it) for it in told]
        encrypt(book, f"random_{number}", *plugins, data=data, drawn=b"".join(seeds) + DRAWN, **more)
        sealer = random_plugin(chance, chance.choice(names))
        sealed = random_value(chance, sealer, chance.choice((ZEROS, OTHER)), data, PATH)
        decrypt(book, f"random_{number}", sealed, *plugins, drawn=b"".join(seeds), **more)


def add_all(book):
    book.title("encrypt with plugins")
    add_encrypt(book)
    book.title("decrypt with plugins")
    add_decrypt(book)
    book.title("two causes at once with plugins, named in the order of the steps")
    add_pairs(book)
    book.title("random calls with plugins")
    add_random(book, 40, 20261128)
