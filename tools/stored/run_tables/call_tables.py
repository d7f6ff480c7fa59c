"""Values, the objects of plugins, faults, pairs of causes, and random calls."""

import itertools
import random

from reference.values import MARK, prefix, seal

from .form import IV, PATH, SECRETS, check_words, config, object_words, repeated
from .objects import OBJECTS, bytes_of

K16, K32, Z16 = bytes(range(16)), bytes(range(32)), bytes(16)
FIPS_IV = bytes.fromhex("68744e5f2b5e6d7c8392a1b0c7d6e5f4")
CBC = prefix(("aescbc", "key1"))
GCM = prefix(("aesgcm", "g"))
FIPS_BLOCK = bytes.fromhex("69c4e0d86a7b0430d8cdb78070b4c55a")
HELLO = CBC + FIPS_IV + FIPS_BLOCK
ZEROS = bytes(16)
SEALED_ZEROS = GCM + bytes(12) + bytes.fromhex("0388dace60b6a392f328c2b971b2fe78ab6e47d42cec13bdf53a67b21257bddf")
TWO = "secrets: aescbc:key1=K16, identity"
BARE = "secrets: identity"


def files(text):
    return (("c.json", config(text)),)


def encrypt(book, name, text, data, drawn=IV, path=PATH, resource="secrets", **more):
    book.case(name, object_words("encrypt", resource, path), files(text), data, ((0, drawn),), **more)


def decrypt(book, name, text, value, path=PATH, resource="secrets", **more):
    book.case(name, object_words("decrypt", resource, path), files(text), value, ((0, b""),), **more)


# ---- encrypt


def add_encrypt(book):
    encrypt(book, "encrypt_identity_empty", BARE, b"", b"")
    encrypt(book, "encrypt_identity", BARE, b"hello", b"")
    encrypt(book, "encrypt_identity_draws_nothing", BARE, b"hello")
    encrypt(book, "encrypt_identity_zero_byte", BARE, b"k8s\0", b"")
    encrypt(book, "encrypt_identity_begin_of_the_mark", BARE, b"k8s:enc", b"")
    encrypt(book, "encrypt_identity_mark_later", BARE, b" k8s:enc:", b"")
    encrypt(book, "encrypt_refused_13", BARE, b"k8s:enc:x", b"")
    encrypt(book, "encrypt_refused_13_mark_alone", BARE, MARK, b"")
    encrypt(book, "encrypt_refused_13_by_fallback", "configmaps: aescbc:k=K16", b"k8s:enc:x", b"")
    encrypt(book, "encrypt_fallback", "configmaps: aescbc:k=K16", b"hello", b"")
    encrypt(book, "encrypt_mark_under_aescbc", TWO, b"k8s:enc:x", bytes(16))
    encrypt(book, "encrypt_mark_under_aesgcm", "secrets: aesgcm:g=Z16", b"k8s:enc:x", bytes(12))
    encrypt(book, "encrypt_aescbc", TWO, b"hello", FIPS_IV)
    encrypt(book, "encrypt_aescbc_empty_32", "secrets: aescbc:key1=K32", b"", IV)
    encrypt(book, "encrypt_aesgcm", "secrets: aesgcm:g=Z16", ZEROS, bytes(12), path="")
    encrypt(book, "encrypt_aesgcm_path", "secrets: aesgcm:g=Z16", ZEROS, bytes(12))
    encrypt(book, "encrypt_draws_the_front", TWO, b"hello", FIPS_IV + b"more")
    encrypt(book, "encrypt_gcm_draws_the_front", "secrets: aesgcm:g=Z16", ZEROS, bytes(12) + b"more")
    encrypt(book, "encrypt_first_of_two_keys", "secrets: aescbc:a=K32+b=K16", b"hello")
    encrypt(book, "encrypt_first_of_two_kinds", "secrets: aesgcm:a=K32, aescbc:b=K16", b"hello")
    encrypt(book, "encrypt_second_entry", "a: identity | secrets: aesgcm:a=K24 | *.: identity", b"hello")
    encrypt(book, "encrypt_group", "*.apps: aescbc:a=K24", b"hello", resource="deployments.apps")
    encrypt(book, "encrypt_name_of_253", "secrets: aescbc:" + "n" * 253 + "=K16", b"hello")
    encrypt(book, "encrypt_path_of_1024", "secrets: aesgcm:g=K32", b"hello", path="/" * 1024)
    encrypt(book, "encrypt_with_a_plugin_option", TWO, b"hello", path="/p")
    for kind, secret in itertools.product(("aescbc", "aesgcm"), ("K16", "K24", "K32")):
        for size in (0, 1, 15, 16, 17, 31, 32, 33):
            encrypt(book, f"encrypt_{kind}_{secret}_{size}", f"secrets: {kind}:k={secret}", bytes(range(100, 100 + size)))
        encrypt(book, f"encrypt_{kind}_{secret}_1000", f"secrets: {kind}:k={secret}", bytes(1000))
    for command in ("encrypt", "decrypt"):
        for place, text in (("first", "secrets: kms:p, identity"), ("last", "secrets: identity, kms:p"), ("elsewhere", f"{BARE} | *.*: kms:p"), ("least_of_two", "secrets: kms:q, kms:p"), ("second_of_two", f"{BARE} | a: kms:q | b: kms:p")):
            book.case(f"{command}_text_44_plugin_{place}", object_words(command), files(text), b"hello", ((0, IV),))


# ---- decrypt


def altered(data, at, by=1):
    return data[:at] + bytes([data[at] ^ by]) + data[at + 1 :]


def add_decrypt(book):
    decrypt(book, "decrypt_fresh", TWO, HELLO)
    decrypt(book, "decrypt_stale", "secrets: identity, aescbc:key1=K16", HELLO)
    decrypt(book, "decrypt_stale_second_key", "secrets: aescbc:a=K32+key1=K16", HELLO)
    decrypt(book, "decrypt_identity_fresh", "secrets: identity, aescbc:key1=K16", b"hello")
    decrypt(book, "decrypt_identity_stale", TWO, b"hello")
    decrypt(book, "decrypt_identity_empty", BARE, b"")
    decrypt(book, "decrypt_begin_of_the_mark", BARE, b"k8s:enc")
    decrypt(book, "decrypt_fallback", "configmaps: aescbc:k=K16", b"hello")
    decrypt(book, "decrypt_draws_nothing", TWO, HELLO)
    decrypt(book, "decrypt_aesgcm", "secrets: aesgcm:g=Z16", SEALED_ZEROS, path="")
    decrypt(book, "decrypt_aesgcm_other_path", "secrets: aesgcm:g=Z16", SEALED_ZEROS)
    decrypt(book, "decrypt_mark", TWO, CBC + bytes(16) + bytes.fromhex("f9528ad9d9301f4d1a31c2be36ca6835"))
    decrypt(book, "decrypt_empty_under_32", "secrets: aescbc:key1=K32", CBC + IV + bytes.fromhex("8ea2b7ca516745bfeafc49904b496089"))
    # no provider reads it
    decrypt(book, "decrypt_12_identity_alone", BARE, HELLO)
    decrypt(book, "decrypt_12_other_kind", "secrets: identity, aesgcm:key1=K16", HELLO)
    decrypt(book, "decrypt_12_other_name", "secrets: aescbc:key2=K16, identity", HELLO)
    decrypt(book, "decrypt_12_longer_name", "secrets: aescbc:key=K16, identity", HELLO)
    decrypt(book, "decrypt_12_other_entry", "secrets: identity | *.*: aescbc:key1=K16", HELLO)
    decrypt(book, "decrypt_12_mark", BARE, MARK)
    decrypt(book, "decrypt_12_strange", TWO, b"k8s:enc:x")
    decrypt(book, "decrypt_12_version", TWO, b"k8s:enc:aescbc:v2:key1:" + bytes(32))
    decrypt(book, "decrypt_12_no_colon", TWO, CBC[:-1])
    decrypt(book, "decrypt_12_bare_without_identity", "secrets: aescbc:key1=K16", b"hello")
    decrypt(book, "decrypt_12_kms_value", TWO, prefix(("kms", "p")) + bytes_of("whole"))
    # lengths of bodies
    for size in (0, 1, 15, 16, 17, 31, 33, 47):
        decrypt(book, f"decrypt_cbc_body_of_{size}", TWO, CBC + bytes(size))
    for size in (0, 1, 12, 16, 27, 28, 29):
        decrypt(book, f"decrypt_gcm_body_of_{size}", "secrets: aesgcm:g=Z16", GCM + bytes(size))
    # paddings: the IV chooses what the last block is read as
    plain = bytes(a ^ b for a, b in zip(FIPS_IV, b"hello" + bytes([11]) * 11))
    for name, text in PADDINGS.items():
        iv = bytes(a ^ b for a, b in zip(plain, text))
        decrypt(book, f"decrypt_padding_{name}", TWO, CBC + iv + FIPS_BLOCK)
    # one bit is another
    for at in (8, 15, 22):
        decrypt(book, f"decrypt_altered_prefix_{at}", TWO, altered(HELLO, at))
    for at in (20, 31, 32, 40, 48, 63):
        decrypt(book, f"decrypt_altered_gcm_{at}", "secrets: aesgcm:g=Z16", altered(SEALED_ZEROS, at), path="")
    decrypt(book, "decrypt_gcm_other_key", "secrets: aesgcm:g=K16", SEALED_ZEROS, path="")
    decrypt(book, "decrypt_gcm_longer_key", "secrets: aesgcm:g=K32", SEALED_ZEROS, path="")
    decrypt(book, "decrypt_gcm_cut", "secrets: aesgcm:g=Z16", SEALED_ZEROS[:-1], path="")
    decrypt(book, "decrypt_gcm_more", "secrets: aesgcm:g=Z16", SEALED_ZEROS + b"\0", path="")
    decrypt(book, "decrypt_cbc_more", TWO, HELLO + b"\0")
    decrypt(book, "decrypt_other_secret_of_the_name", "secrets: aescbc:key1=K32", HELLO)


PADDINGS = {
    "zeros": bytes(16),
    "16": bytes([16]) * 16,
    "17": bytes([17]) * 16,
    "1": bytes(15) + b"\x01",
    "2": bytes(14) + b"\x02\x02",
    "3_2": bytes(14) + b"\x03\x02",
    "15": b"\0" + bytes([15]) * 15,
    "first_byte_of_16": b"\x11" + bytes([16]) * 15,
    "255": bytes([255]) * 16,
}


# ---- inspect


INSPECTED = {
    "empty": b"",
    "plain": b"hello",
    "zero_byte": b"k8s\0",
    "begin_of_the_mark": b"k8s:enc",
    "aescbc": HELLO,
    "aescbc_no_body": CBC,
    "aesgcm": SEALED_ZEROS,
    "name_of_253": prefix(("aesgcm", "n" * 253)) + b"x",
    "name_of_any_bytes": b"k8s:enc:aescbc:v1:!~\"\\:x:y",
    "colon_in_the_body": CBC + b"::",
    "12_mark": MARK,
    "12_secretbox": b"k8s:enc:secretbox:v1:k:",
    "12_version": b"k8s:enc:aesgcm:v2:k:",
    "12_kms_v1": b"k8s:enc:kms:v1:p:x",
    "12_no_name": b"k8s:enc:aescbc:v1::x",
    "12_no_colon": b"k8s:enc:aescbc:v1:key1",
    "12_name_of_254": b"k8s:enc:aescbc:v1:" + b"n" * 254 + b":",
    "12_name_with_space": b"k8s:enc:aescbc:v1:a b:",
    "12_name_with_zero": b"k8s:enc:kms:v2:a\0:",
    "12_name_with_high_byte": b"k8s:enc:kms:v2:\xc3\xa9:",
    "12_kind_in_capitals": b"k8s:enc:AESCBC:v1:k:",
}


def add_inspect(book):
    for name, value in INSPECTED.items():
        book.case(f"inspect_{name}", ["inspect"], data=value)
    book.title("the encrypted object of a plugin")
    for name in OBJECTS:
        book.case(f"object_{name}", ["inspect"], data=prefix(("kms", "p")) + bytes_of(name))
    whole = bytes_of("whole")
    for size in range(len(whole)):
        book.case(f"object_cut_to_{size}", ["inspect"], data=prefix(("kms", "p")) + whole[:size])


# ---- limits


def add_limits(book):
    for size in (2_097_152, 2_097_153):
        encrypt(book, f"limit_data_{size}", BARE, repeated(size, b"a"), b"", step=8192)
    encrypt(book, "limit_data_far_above", BARE, repeated(2_200_000, b"a"), b"", step=8192)
    encrypt(book, "limit_data_under_aescbc", TWO, repeated(2_097_153, b"a"), step=8192)
    for size in (2_162_688, 2_162_689):
        decrypt(book, f"limit_value_{size}", BARE, repeated(size, b"a"), step=8192)
        book.case(f"limit_value_inspect_{size}", ["inspect"], data=repeated(size, b"a"), step=8192)
    encrypt(book, "long_aescbc", TWO, repeated(70_001, b"a"), step=8192)
    encrypt(book, "long_aesgcm", "secrets: aesgcm:g=K32", repeated(70_001, b"a"), step=8192)
    encrypt(book, "steps_of_7", TWO, b"hello, hello, hello", step=7)
    decrypt(book, "steps_of_7_decrypt", TWO, HELLO, step=7)


# ---- faults


def add_faults(book):
    value = len(CBC) + 32
    plan = {
        # the input has a call for each byte and one for its end
        "input": (("encrypt", (1, 2, 3, 4)), ("decrypt", (1, 2, len(HELLO) + 1, len(HELLO) + 2)), ("inspect", (1, 2, len(HELLO) + 1))),
        "output": (("encrypt", (1, 2, value, value + 1)), ("decrypt", (1, 2, 5, 6)), ("inspect", (1, 2, 15, 16)), ("check", (1, 2, 38, 60))),
        "errors": (("encrypt", (1, 2)), ("decrypt", (1, 2, 6, 7)), ("inspect", (1,)), ("check", (1,))),
        # the file, then the random source
        "files": (("encrypt", (1, 2, 3)), ("decrypt", (1, 2, 3)), ("check", (1, 2)), ("inspect", (1,))),
        "dice:0": (("encrypt", (1, 2)), ("decrypt", (1,))),
    }
    for item, calls in plan.items():
        for command, numbers in calls:
            for number in numbers:
                name = f"fault_{item.replace(':', '_')}_{command}_{number}"
                fault(book, name, command, ((item, number),))
    # each of two calls that come
    fault(book, "fault_files_two_calls_fail", "encrypt", (("files", "1 2"),))
    fault(book, "fault_input_two_calls_fail", "encrypt", (("input", "2 3"),))
    fault(book, "fault_output_two_calls_fail", "encrypt", (("output", "1 2"),))
    fault(book, "fault_no_call_0", "encrypt", (("input", "0"), ("output", "0"), ("files", "0"), ("dice:0", "0")))
    fault(book, "fault_output_room_0", "encrypt", (), room=0)
    fault(book, "fault_output_room_one_too_few", "encrypt", (), room=value - 1)
    fault(book, "fault_output_room_enough", "encrypt", (), room=value)
    fault(book, "fault_output_room_decrypt", "decrypt", (), room=4)
    # the line itself can't be written
    for number in (1, 2, 33, 34):
        encrypt(book, f"fault_errors_refused_{number}", BARE, b"k8s:enc:x", b"", fails=(("errors", number),))
    book.case("fault_errors_usage", ["seal"], fails=(("errors", 1),))
    book.case("fault_errors_limit", ["judge", "--store", "s", "--reload", "0=f"] + ["--replica", "f"] * 17, fails=(("errors", 2),))
    book.case("fault_errors_absent", check_words(), fails=(("errors", 5),))
    fault(book, "fault_errors_of_a_fault", "encrypt", (("input", 1), ("errors", 1)))
    # random sources
    words = object_words("encrypt")
    for name, text in (("identity", BARE), ("aescbc", TWO), ("aesgcm", "secrets: aesgcm:g=K16")):
        book.case(f"fault_no_dice_{name}", words, files(text), b"hi")
        book.case(f"fault_dice_of_another_seat_{name}", words, files(text), b"hi", ((1, IV),))
        book.case(f"fault_dice_empty_{name}", words, files(text), b"hi", ((0, b""),))
        book.case(f"fault_dice_too_short_{name}", words, files(text), b"hi", ((0, IV[:11]),))
        book.case(f"fault_dice_fails_{name}", words, files(text), b"hi", ((0, IV),), (("dice:0", 1),))
    book.case("fault_dice_of_15_bytes_aescbc", words, files(TWO), b"hi", ((0, IV[:15]),))
    book.case("dice_of_12_bytes_aesgcm", words, files("secrets: aesgcm:g=K16"), b"hi", ((0, IV[:12]),))
    book.case("dice_of_two_seats", words, files(TWO), b"hi", ((1, b"other"), (0, IV)))
    book.case("dice_of_another_seat_fails", words, files(TWO), b"hi", ((0, IV), (1, IV)), (("dice:1", 1),))
    book.case("fault_no_dice_decrypt", object_words("decrypt"), files(TWO), HELLO)


def fault(book, name, command, fails, room=None):
    given = {"encrypt": b"hi", "decrypt": HELLO, "inspect": HELLO, "check": b""}[command]
    words = check_words() if command == "check" else ["inspect"] if command == "inspect" else object_words(command)
    book.case(name, words, files(TWO) if command != "inspect" else (), given, ((0, IV),), fails, room)


# ---- pairs of causes: the earlier step decides


class Causes(dict):
    """What a call is given, as a cause changes it."""

    def but(self, **changes):
        return Causes({**self, **changes, "fails": (*self["fails"], *changes.get("fails", ()))})


LONG = {"encrypt": 2_097_153, "decrypt": 2_162_689, "inspect": 2_162_689}

# (megabytes cost time, so these stand beside the causes of `encrypt` and `inspect` alone)
LONG_CAUSES = ("long_file", "long_input")

# in the order of the steps: the part of the call that a cause takes, and what it makes of it
SHARED = {
    "words": ("words", lambda it: it.but(words=it["words"][:-1])),
    "load_fails": ("load", lambda it: it.but(fails=(("files", 1),))),
    "absent": ("file", lambda it: it.but(files=())),
    "long_file": ("file", lambda it: it.but(files=(("c.json", repeated(1_048_577, b" ")),))),
    "breach": ("file", lambda it: it.but(files=(("c.json", "{}"),))),
}
OBJECT_CAUSES = {
    **SHARED,
    "plugin": ("file", lambda it: it.but(files=files("secrets: identity | a: kms:p"))),
    "input_fails": ("input call", lambda it: it.but(fails=(("input", 2),))),
    "long_input": ("input", lambda it: it.but(data=repeated(it["long"], b"a"), step=8192)),
    "no_dice": ("dice", lambda it: it.but(dice=())),
}
CAUSES = {
    "encrypt": {
        **OBJECT_CAUSES,
        "refused": ("writer", lambda it: it.but(data=b"k8s:enc:x", files=it["files"] and files(BARE))),
        "draw_fails": ("writer", lambda it: it.but(fails=(("dice:0", 1),))),
        "output_fails": ("output", lambda it: it.but(fails=(("output", 1),))),
        "errors_fail": ("errors", lambda it: it.but(fails=(("errors", 1),))),
    },
    "decrypt": {
        **OBJECT_CAUSES,
        "refused": ("value", lambda it: it.but(data=HELLO[:-1])),
        "output_fails": ("output", lambda it: it.but(fails=(("output", 1),))),
        "errors_fail": ("errors", lambda it: it.but(fails=(("errors", 1),))),
    },
    "check": {
        **SHARED,
        "output_fails": ("output", lambda it: it.but(fails=(("output", 1),))),
        "errors_fail": ("errors", lambda it: it.but(fails=(("errors", 1),))),
    },
    "inspect": {
        "words": ("words", lambda it: it.but(words=["inspect", "x"])),
        "input_fails": ("input call", lambda it: it.but(fails=(("input", 2),))),
        "long_input": ("input", lambda it: it.but(data=repeated(it["long"], b"a"), step=8192)),
        "refused": ("input", lambda it: it.but(data=MARK)),
        "output_fails": ("output", lambda it: it.but(fails=(("output", 1),))),
        "errors_fail": ("errors", lambda it: it.but(fails=(("errors", 1),))),
    },
}


def plain_call(command):
    words = {"check": check_words(), "inspect": ["inspect"]}.get(command) or object_words(command)
    return Causes(
        words=words,
        files=files(TWO) if command != "inspect" else (),
        data={"encrypt": b"hello", "decrypt": HELLO, "inspect": HELLO, "check": b""}[command],
        dice=((0, IV),),
        fails=(),
        step=None,
        long=LONG.get(command),
    )


def add_pairs(book):
    for command, causes in CAUSES.items():
        for (first, (part, change)), (second, (other, change_other)) in itertools.combinations(causes.items(), 2):
            if part == other or (command in ("decrypt", "check") and (first in LONG_CAUSES or second in LONG_CAUSES)):
                continue
            # the later cause first, so that what the earlier one takes away stays away
            call = change(change_other(plain_call(command)))
            if second == "refused" and first in ("absent", "long_file", "breach", "plugin"):
                call = change(plain_call(command)).but(data=change_other(plain_call(command))["data"])
            # (only with one byte a call is it known which call fails)
            step = call["step"] if not any(item in ("input", "output", "errors") for item, _ in call["fails"]) else None
            book.case(f"pair_{command}_{first}_{second}", call["words"], call["files"], call["data"], call["dice"], call["fails"], step=step)


# ---- random calls


def random_list(chance):
    made = []
    for number in range(chance.randint(1, 4)):
        kind = chance.choice(("aescbc", "aesgcm", "identity"))
        if kind == "identity":
            if not any(it[0] == "identity" for it in made):
                made.append(("identity", ""))
        else:
            made.append((kind, f"k{number}", chance.choice(list(SECRETS))))
    return made or [("identity", "")]


def list_text(providers):
    return ", ".join(it[0] if it[0] == "identity" else f"{it[0]}:{it[1]}={it[2]}" for it in providers)


def add_random(book, count, seed):
    import base64

    chance = random.Random(seed)
    for number in range(count):
        providers = random_list(chance)
        data = chance.choice((b"", MARK, b"k8s:enc:aescbc:v1:k0:")) + chance.randbytes(chance.choice((0, 1, 15, 16, 17, 40, 100)))
        drawn = chance.randbytes(chance.choice((16, 16, 12, 20)))
        path = chance.choice((PATH, "", "/a", "/registry/secrets/d/t"))
        text = f"secrets: {list_text(providers)}"
        encrypt(book, f"random_encrypt_{number}", text, data, drawn, path)
        # a sealing by one of the list, sometimes altered, cut, read at another path or by another list
        writer = chance.choice(providers)
        if writer[0] == "identity":
            value = data
        else:
            writer = (*writer[:2], base64.b64decode(SECRETS[writer[2]]))
            value = seal(writer, path.encode(), data, chance.randbytes)
        pick = chance.random()
        if pick < 0.2 and value:
            value = altered(value, chance.randrange(len(value)), 1 << chance.randrange(8))
        elif pick < 0.3:
            value = value[: chance.randint(0, len(value))]
        elif pick < 0.4:
            path = path + "/x"
        elif pick < 0.5:
            chance.shuffle(providers)
            text = f"secrets: {list_text(providers)}"
        decrypt(book, f"random_decrypt_{number}", text, value, path)


def add_all(book):
    book.title("encrypt")
    add_encrypt(book)
    book.title("decrypt")
    add_decrypt(book)
    book.title("inspect")
    add_inspect(book)
    book.title("limits of the input, and longer calls")
    add_limits(book)
    book.title("faults, by the numbers of the calls that fail")
    add_faults(book)
    book.title("two causes at once, named in the order of the steps")
    add_pairs(book)
    book.title("random calls")
    add_random(book, 60, 20261127)
