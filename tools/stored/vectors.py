"""Writes the stored run of test_vectors, crates/test_vectors/stdin and stdout; with the word `check` it compares them instead.

Each answer comes from Python's `cryptography`, those of HMAC and HKDF from Python's own `hmac`, and what
they leave to their caller is decided here by the rules of the standards: the padding of PKCS #7, the
blocks of HKDF-Expand and which lengths are refused, those of the key wrap too. The program itself is never asked. The seed is fixed,
so a run writes the same files again.
"""

import hashlib
import hmac as python_hmac
import random
import sys
from pathlib import Path

from cryptography.exceptions import InvalidTag
from cryptography.hazmat.primitives.ciphers import Cipher, algorithms, modes
from cryptography.hazmat.primitives.ciphers.aead import AESGCM
from cryptography.hazmat.primitives.hashes import SHA256
from cryptography.hazmat.primitives.kdf.hkdf import HKDFExpand
from cryptography.hazmat.primitives.keywrap import InvalidUnwrap, aes_key_unwrap, aes_key_wrap

BLOCK = 16
TAG = 16
KEY_SIZES = (16, 24, 32)
OTHER_KEY_SIZES = (0, 1, 8, 15, 17, 20, 23, 25, 31, 33, 48, 64)
AAD_SIZES = tuple(range(34)) + (47, 48, 49, 64, 65)
HMAC_KEY_SIZES = (0, 1, 20, 31, 32, 33, 63, 64, 65, 66, 127, 128, 129, 200)
MESSAGE_SIZES = (0, 1, 28, 54, 55, 56, 63, 64, 65, 119, 120, 128)
OUTPUT_SIZES = (0, 1, 16, 31, 32, 33, 42, 63, 64, 65, 80, 95, 96, 97, 255, 256, 257, 1000, 2048, 8159, 8160)
# from 256 bytes on GCM's counter mode goes by eight blocks, 128 bytes
COUNTED_SIZES = (255, 256, 257, 271, 272, 384, 399, 401, 495, 511, 512, 513, 639, 640, 641)
INFO_SIZES = (0, 1, 10, 22, 23, 31, 32, 54, 55, 64, 80, 200, 1000)
TABLE_SIZES = tuple(range(50)) + (63, 64, 65, 79, 80, 81)

source = random.Random(20261126)
cases = []


def drawn(size):
    return source.randbytes(size)


def key_of(turn):
    return drawn(KEY_SIZES[turn % len(KEY_SIZES)])


def written(data):
    return data.hex() if data else "-"


def add(name, operands, answer):
    """A case. The answer is bytes or a refusal's name."""
    line = " ".join([name, *map(written, operands)])
    cases.append((line, written(answer) if isinstance(answer, bytes) else answer))


# ---- the independent answers


def run_cipher(key, mode, data, decrypts):
    cipher = Cipher(algorithms.AES(key), mode)
    step = cipher.decryptor() if decrypts else cipher.encryptor()
    return step.update(data) + step.finalize()


def padded(data):
    count = BLOCK - len(data) % BLOCK
    return data + bytes([count]) * count


def unpadded(data):
    """PKCS #7: the last byte n is 1 to 16, and the last n bytes are n."""
    count = data[-1]
    if not 1 <= count <= BLOCK or data[-count:] != bytes([count]) * count:
        return "BadPadding"
    return data[:-count]


def aes(key, block):
    if len(key) not in KEY_SIZES:
        return "KeyLength"
    return run_cipher(key, modes.ECB(), block, False)


def unaes(key, block):
    if len(key) not in KEY_SIZES:
        return "KeyLength"
    return run_cipher(key, modes.ECB(), block, True)


def cbc(key, iv, plain):
    if len(key) not in KEY_SIZES:
        return "KeyLength"
    return run_cipher(key, modes.CBC(iv), padded(plain), False)


def uncbc(key, body):
    if len(key) not in KEY_SIZES:
        return "KeyLength"
    if len(body) <= BLOCK:
        return "Short"
    if len(body) % BLOCK != 0:
        return "BadBlock"
    return unpadded(run_cipher(key, modes.CBC(body[:BLOCK]), body[BLOCK:], True))


def gcm(key, nonce, aad, plain):
    if len(key) not in KEY_SIZES:
        return "KeyLength"
    return AESGCM(key).encrypt(nonce, plain, aad)


def ungcm(key, nonce, aad, body):
    if len(key) not in KEY_SIZES:
        return "KeyLength"
    if len(body) < TAG:
        return "Short"
    try:
        return AESGCM(key).decrypt(nonce, body, aad)
    except InvalidTag:
        return "BadTag"


def hmac(key, message):
    return python_hmac.new(key, message, hashlib.sha256).digest()


def hkdf(prk, info, size):
    """RFC 5869, section 2.3: T(n) is the code of T(n - 1), the info and n. The size is two bytes."""
    size = int.from_bytes(size, "big")
    block, output = b"", b""
    for n in range(1, -(-size // 32) + 1):
        block = hmac(prk, block + info + bytes([n]))
        output += block
    output = output[:size]
    if size > 0:
        assert output == HKDFExpand(SHA256(), size, info).derive(prk)
    return output


def wrap(kek, plain):
    if len(kek) not in KEY_SIZES:
        return "KeyLength"
    return aes_key_wrap(kek, plain)


def unwrap(kek, body):
    """What is wrapped has 16 to 1,016 bytes, a multiple of eight, and its wrap eight more."""
    if len(kek) not in KEY_SIZES:
        return "KeyLength"
    if len(body) % 8 != 0 or not 24 <= len(body) <= 1024:
        return "Length"
    try:
        return aes_key_unwrap(kek, body)
    except InvalidUnwrap:
        return "Check"


ANSWERS = {
    "aes": aes,
    "unaes": unaes,
    "cbc": cbc,
    "uncbc": uncbc,
    "gcm": gcm,
    "ungcm": ungcm,
    "hmac": hmac,
    "hkdf": hkdf,
    "wrap": wrap,
    "unwrap": unwrap,
}


def ask(name, *operands):
    answer = ANSWERS[name](*operands)
    add(name, operands, answer)
    return answer


# ---- the cases


def altered(data, index, bit):
    return data[:index] + bytes([data[index] ^ 1 << bit]) + data[index + 1 :]


def single_blocks():
    for turn in range(90):
        key, block = key_of(turn), drawn(BLOCK)
        sealed = ask("aes", key, block)
        ask("unaes", key, sealed)
        ask("unaes", key, drawn(BLOCK))
    for size in KEY_SIZES:
        for fill in (0x00, 0xFF):
            for other in (0x00, 0xFF):
                ask("aes", bytes([fill]) * size, bytes([other]) * BLOCK)
                ask("unaes", bytes([fill]) * size, bytes([other]) * BLOCK)


def chained():
    for turn, size in enumerate(TABLE_SIZES):
        key, iv, plain = key_of(turn), drawn(BLOCK), drawn(size)
        ask("uncbc", key, iv + ask("cbc", key, iv, plain))
    for turn in range(KEY_SIZES[-1]):
        # two bytes that fit one another's place: the data ends as a padding does
        key, iv, size = key_of(turn), drawn(BLOCK), turn + 1
        ask("uncbc", key, iv + ask("cbc", key, iv, bytes([turn % BLOCK + 1]) * size))


def eights():
    """Bodies round eight blocks and twice eight, since so many are opened at once."""
    for size in KEY_SIZES:
        for blocks in (7, 8, 9, 15, 16, 17, 24, 25):
            # fifteen blocks have sixteen bytes of padding, and sixteen have one
            key, iv, plain = drawn(size), drawn(BLOCK), drawn(BLOCK * blocks - blocks % BLOCK - 1)
            body = iv + cbc(key, iv, plain)
            assert len(body) == BLOCK * (blocks + 1)
            ask("uncbc", key, body)
            # a bit of the last block but one, and so one of the padding, is another
            ask("uncbc", key, altered(body, len(body) - BLOCK - 1, blocks % 8))


def body_of(key, plain):
    """An IV and the blocks of whole plain blocks, without any padding added."""
    iv = drawn(BLOCK)
    return iv + run_cipher(key, modes.CBC(iv), plain, False)


def paddings():
    for last in range(256):
        # every last byte behind arbitrary bytes, and as often as it says
        key, blocks = key_of(last), last % 2 + 1
        ask("uncbc", key, body_of(key, drawn(BLOCK * blocks - 1) + bytes([last])))
        run = min(last, BLOCK * blocks)
        ask("uncbc", key, body_of(key, drawn(BLOCK * blocks - run) + bytes([last]) * run))
    for count in range(1, BLOCK + 1):
        for place in range(1, count + 1):
            # one byte of the padding is another
            key = key_of(count + place)
            plain = drawn(2 * BLOCK - count) + bytes([count]) * count
            ask("uncbc", key, body_of(key, altered(plain, len(plain) - place, place % 8)))


def wrong_bodies():
    for size in tuple(range(50)) + (63, 64, 65, 95, 97):
        ask("uncbc", key_of(size), drawn(size))
    for size in tuple(range(20)) + (31, 32, 33, 48):
        ask("ungcm", key_of(size), drawn(12), drawn(size % 19), drawn(size))


def authenticated():
    for turn, size in enumerate(TABLE_SIZES):
        key, nonce, aad, plain = key_of(turn), drawn(12), drawn(turn * 7 % 40), drawn(size)
        ask("ungcm", key, nonce, aad, ask("gcm", key, nonce, aad, plain))
    for turn, size in enumerate(AAD_SIZES):
        for plain_size in (0, 5, 16, 20):
            key, nonce = key_of(turn + plain_size), drawn(12)
            aad, plain = drawn(size), drawn(plain_size)
            ask("ungcm", key, nonce, aad, ask("gcm", key, nonce, aad, plain))


def altered_seals():
    for bit in range(8 * TAG):
        # each bit of the tag
        key, nonce, aad, plain = key_of(bit), drawn(12), drawn(bit % 18), drawn(bit % 35)
        body = gcm(key, nonce, aad, plain)
        ask("ungcm", key, nonce, aad, altered(body, len(plain) + bit // 8, bit % 8))
    for turn in range(40):
        key, nonce, aad, plain = key_of(turn), drawn(12), drawn(turn % 20 + 1), drawn(turn + 1)
        body = gcm(key, nonce, aad, plain)
        ask("ungcm", key, nonce, aad, altered(body, turn, turn % 8))
        ask("ungcm", key, nonce, altered(aad, turn % len(aad), turn % 8), body)
        ask("ungcm", key, altered(nonce, turn % 12, turn % 8), aad, body)
        ask("ungcm", altered(key, turn % len(key), turn % 8), nonce, aad, body)
        # zeros behind the associated data, one byte fewer of it, and the tag cut off
        ask("ungcm", key, nonce, aad + b"\0", body)
        ask("ungcm", key, nonce, aad[:-1], body)
        ask("ungcm", key, nonce, aad, body[:-1])


def wrong_keys():
    for size in OTHER_KEY_SIZES:
        key = drawn(size)
        for block in ("aes", "unaes"):
            ask(block, key, drawn(BLOCK))
        ask("cbc", key, drawn(BLOCK), drawn(size % 20))
        ask("uncbc", key, drawn(3 * BLOCK))
        ask("gcm", key, drawn(12), drawn(size % 17), drawn(size % 20))
        ask("ungcm", key, drawn(12), drawn(size % 17), drawn(40))
        # the key is looked at before the body
        ask("uncbc", key, drawn(size % 16))
        ask("ungcm", key, drawn(12), b"", drawn(size % 16))


def long_ones():
    for turn, size in enumerate((1000, 1024, 2047, 2048, 4096, 4097)):
        key, iv, nonce, plain = key_of(turn), drawn(BLOCK), drawn(12), drawn(size)
        ask("uncbc", key, iv + ask("cbc", key, iv, plain))
        aad = drawn((size * 3) % 700)
        ask("ungcm", key, nonce, aad, ask("gcm", key, nonce, aad, plain))


def counted_by_eights():
    own = random.Random(20261128)
    for size in COUNTED_SIZES:
        for key_size in KEY_SIZES:
            key, nonce, aad, plain = map(own.randbytes, (key_size, 12, size % 20, size))
            ask("ungcm", key, nonce, aad, ask("gcm", key, nonce, aad, plain))
    for key_size in KEY_SIZES:
        # past 256 blocks the count has a second byte
        key, nonce, plain = map(own.randbytes, (key_size, 12, 4096 + 128 + 21))
        ask("ungcm", key, nonce, b"", ask("gcm", key, nonce, b"", plain))


def standards():
    """Examples that the standards print, whose answers are theirs."""

    def same(answer, printed):
        assert answer == bytes.fromhex(printed)

    # SP 800-38A, section F.2.1: the first two blocks, and behind them the padding's
    key, iv = "2b7e151628aed2a6abf7158809cf4f3c", "000102030405060708090a0b0c0d0e0f"
    plain = "6bc1bee22e409f96e93d7e117393172aae2d8a571e03ac9c9eb76fac45af8e51"
    sealed = ask("cbc", *map(bytes.fromhex, (key, iv, plain)))
    same(sealed[:32], "7649abac8119b246cee98e9b12e9197d5086cb9b507219ee95db113a917678b2")
    # FIPS 197, appendix C.3: the padding's block xor the IV is the example's
    iv = "10013223544576679889baabdccdfeef"
    same(ask("cbc", bytes(range(32)), bytes.fromhex(iv), b""), "8ea2b7ca516745bfeafc49904b496089")
    # FIPS 197, appendices C.1 to C.3, both ways
    block = bytes.fromhex("00112233445566778899aabbccddeeff")
    for size, printed in (
        (16, "69c4e0d86a7b0430d8cdb78070b4c55a"),
        (24, "dda97ca4864cdfe06eaf70a0ec0d7191"),
        (32, "8ea2b7ca516745bfeafc49904b496089"),
    ):
        same(ask("aes", bytes(range(size)), block), printed)
        assert ask("unaes", bytes(range(size)), bytes.fromhex(printed)) == block
    # the GCM specification by McGrew and Viega, test cases 1, 2 and 4
    same(ask("gcm", bytes(16), bytes(12), b"", b""), "58e2fccefa7e3061367f1d57a4e7455a")
    same(
        ask("gcm", bytes(16), bytes(12), b"", bytes(16)),
        "0388dace60b6a392f328c2b971b2fe78ab6e47d42cec13bdf53a67b21257bddf",
    )
    key, nonce = "feffe9928665731c6d6a8f9467308308", "cafebabefacedbaddecaf888"
    aad = "feedfacedeadbeeffeedfacedeadbeefabaddad2"
    plain = (
        "d9313225f88406e5a55909c5aff5269a86a7a9531534f7da2e4c303d8a318a72"
        "1c3c0c95956809532fcf0e2449a6b525b16aedf5aa0de657ba637b39"
    )
    same(
        ask("gcm", *map(bytes.fromhex, (key, nonce, aad, plain))),
        "42831ec2217774244b7221b784d0d49ce3aa212f2c02a4e035c17e2329aca12e"
        "21d514b25466931c7d8f6a5aac84aa051ba30b396a0aac973d58e0915bc94fbc3221a5db94fae95ae7121a47",
    )
    # RFC 4231, test cases 1, 2 and 6, and RFC 5869, test cases 1 and 3
    same(
        ask("hmac", b"\x0b" * 20, b"Hi There"),
        "b0344c61d8db38535ca8afceaf0bf12b881dc200c9833da726e9376c2e32cff7",
    )
    same(
        ask("hmac", b"Jefe", b"what do ya want for nothing?"),
        "5bdcc146bf60754e6a042426089575c75a003f089d2739839dec58b964ec3843",
    )
    same(
        ask("hmac", b"\xaa" * 131, b"Test Using Larger Than Block-Size Key - Hash Key First"),
        "60e431591ee0b67f0d8a26aacbf5b77f8e0bc6213728c5140546040f0ee37f54",
    )
    prk = "077709362c2e32df0ddc3f0dc47bba6390b6c73bb50f9c3122ec844ad7c2b3e5"
    same(
        ask("hkdf", bytes.fromhex(prk), bytes(range(0xF0, 0xFA)), b"\0\x2a"),
        "3cb25f25faacd57a90434f64d0362f2a2d2d0a90cf1a5a4c5db02d56ecc4c5bf34007208d5b887185865",
    )
    prk = "19ef24a32c717b167f33a91d6f648bdf96596776afdb6377ac434c1c293ccb04"
    same(
        ask("hkdf", bytes.fromhex(prk), b"", b"\0\x2a"),
        "8da4e775a563c18f715f802a063c5a31b8a11f5c5ee1879ec3454e5f3c738d2d9d201395faa4b61a96c8",
    )


def codes():
    for size in HMAC_KEY_SIZES:
        key = drawn(size)
        for message_size in MESSAGE_SIZES:
            ask("hmac", key, drawn(message_size))
    for size, message_size in ((1000, 65), (4096, 0), (64, 5000), (65, 1000)):
        ask("hmac", drawn(size), drawn(message_size))


def expansions():
    for turn, size in enumerate(OUTPUT_SIZES):
        prk, info = drawn(HMAC_KEY_SIZES[turn % len(HMAC_KEY_SIZES)]), drawn(turn * 7 % 100)
        ask("hkdf", prk, info, size.to_bytes(2, "big"))
    for turn, size in enumerate(INFO_SIZES):
        for output_size in (1, 32, 65, 100):
            ask("hkdf", drawn(32 + turn), drawn(size), output_size.to_bytes(2, "big"))


def wraps():
    for turn, size in enumerate(range(16, 1017, 8)):
        kek, plain = key_of(turn), drawn(size)
        body = ask("wrap", kek, plain)
        if size <= 256 or size >= 1000:
            ask("unwrap", kek, body)
    for turn in range(40):
        # a bit of the body or of the key is another: in each byte of a short body, the last one too
        kek, plain = key_of(turn), drawn(16 + turn % 3 * 8)
        body = wrap(kek, plain)
        ask("unwrap", kek, altered(body, turn % len(body), turn % 8))
        ask("unwrap", altered(kek, turn % len(kek), turn % 8), body)
        # two blocks change places, and one is missing
        ask("unwrap", kek, body[:8] + body[16:24] + body[8:16] + body[24:])
        ask("unwrap", kek, body[:-8])
        ask("unwrap", kek, body + body[-8:])
    for size in tuple(range(34)) + (1016, 1017, 1023, 1024, 1025, 1031, 1032, 4096):
        ask("unwrap", key_of(size), drawn(size))
    for size in OTHER_KEY_SIZES:
        ask("wrap", drawn(size), drawn(16))
        ask("unwrap", drawn(size), drawn(24))
    for size in tuple(range(16)) + (17, 20, 23, 25, 1015, 1017, 1020, 1024, 4096):
        cases.append((f"wrap {'00' * 16} {written(drawn(size))}", "line"))
    for line in ("wrap", "wrap 00", f"wrap {'00' * 16} {'00' * 16} -", f"unwrap {'00' * 16}"):
        cases.append((line, "line"))


def printed_wraps():
    """RFC 3394, section 4: each example, whose answer is the RFC's."""
    plain = "00112233445566778899aabbccddeeff000102030405060708090a0b0c0d0e0f"
    for key_size, size, printed in (
        (16, 16, "1fa68b0a8112b447aef34bd8fb5a7b829d3e862371d2cfe5"),
        (24, 16, "96778b25ae6ca435f92b5b97c050aed2468ab8a17ad84e5d"),
        (32, 16, "64e8c3f9ce0f5ba263e9777905818a2a93c8191e7d6e8ae7"),
        (24, 24, "031d33264e15d33268f24ec260743edce1c6c7ddee725a936ba814915c6762d2"),
        (32, 24, "a8f9bc1612c68b3ff6e6f4fbe30e71e4769c8b80a32cb8958cd5d17d6b254da1"),
        (32, 32, "28c9f404c4b810f4cbccb35cfb87f8263f5786e2d80ed326cbc7f0e71a99f43bfb988b9b7a02dd21"),
    ):
        kek, data = bytes(range(key_size)), bytes.fromhex(plain)[:size]
        body = ask("wrap", kek, data)
        assert body == bytes.fromhex(printed)
        assert ask("unwrap", kek, body) == data
        assert ask("unwrap", kek, body[:-1] + b"\0") == "Check"
    # the lengths: 16 bytes are no wrap
    ask("unwrap", bytes(range(16)), bytes(16))


def no_cases():
    key, block, nonce = "00" * 16, "11" * 16, "22" * 12
    for line in (
        "",
        " ",
        "-",
        "aes",
        f"aes {key}",
        f"aes {key} -",
        f"aes {key} {block[2:]}",
        f"aes {key} {block}00",
        f"aes {key} {block} ",
        f"aes {key} {block} {block}",
        f" aes {key} {block}",
        f"aes  {key} {block}",
        f"aes {key}\t{block}",
        f"AES {key} {block}",
        f"aess {key} {block}",
        f"ae {key} {block}",
        f"aes {key[1:]} {block}",
        f"aes {key[2:]}0g {block}",
        f"aes -- {block}",
        f"unaes {key}",
        f"unaes {key} {block[1:]}",
        f"cbc {key} {block}",
        f"cbc {key} {block} ",
        f"cbc {key} - -",
        f"cbc {key} {block} 0",
        f"cbc {key} {block} zz",
        f"cbc {key} {block} - -",
        f"uncbc {key}",
        f"uncbc {key} {block} {block}",
        f"uncbc {key} 123",
        f"gcm {key} {nonce} -",
        f"gcm {key} {nonce[2:]} - -",
        f"gcm {key} {nonce}00 - -",
        f"gcm {key} {block} - -",
        f"gcm {key} {nonce} - - -",
        f"gcm {key} {nonce}  -",
        f"ungcm {key} {nonce} {block}",
        f"ungcm {key} {nonce} 0x00 {block}",
        f"ungcm {key} - - {block}",
        f"ctr {key} {block} -",
        f"hmac {key}",
        f"hmac {key} - -",
        f"hmac {key} 0",
        f"hmac {key} ",
        f"hmac {key[1:]} -",
        f"hmac  {key} -",
        f"HMAC {key} -",
        f"hmacs {key} -",
        f"hkdf {key} -",
        f"hkdf {key} - -",
        f"hkdf {key} - 20",
        f"hkdf {key} - 000020",
        f"hkdf {key} - 0020 -",
        f"hkdf {key} 0 0020",
        f"hkdf {key} - 002g",
        # one byte more than 255 blocks
        f"hkdf {key} - 1fe1",
        f"hkdf {key} - ffff",
        f"hkdf {key[1:]} - 0020",
        "hkdf - -",
    ):
        cases.append((line, "line"))


def main():
    for part in (
        single_blocks,
        chained,
        paddings,
        wrong_bodies,
        authenticated,
        altered_seals,
        wrong_keys,
        long_ones,
        counted_by_eights,
        standards,
        codes,
        expansions,
        no_cases,
        wraps,
        printed_wraps,
        eights,
    ):
        part()
    folder = Path(__file__).resolve().parent.parent.parent / "crates" / "test_vectors"
    made = {
        "stdin": "".join(line + "\n" for line, _ in cases),
        "stdout": "".join(answer + "\n" for _, answer in cases),
    }
    for name, text in made.items():
        if sys.argv[1:] != ["check"]:
            (folder / name).write_text(text)
        elif (folder / name).read_text() != text:
            sys.exit(f"not so: {folder / name} isn't what is made here")
    print(f"{len(cases)} cases", file=sys.stderr)


if __name__ == "__main__":
    main()
