"""Stored values: sealing, reading, and the encrypted object of a plugin."""

import hashlib
import hmac
import re

MARK = b"k8s:enc:"
HEADS = {"aescbc": b"k8s:enc:aescbc:v1:", "aesgcm": b"k8s:enc:aesgcm:v1:", "kms": b"k8s:enc:kms:v2:"}
NAMES = dict(
    enumerate(
        "Short BadBlock BadPadding BadTag Wire KeyId Source Annotations SourceType NoData NotUtf8 NoProvider LooksEncrypted TooLarge SeedLength".split(),
        1,
    )
)
BLOCK = 16
NONCE = 12
TAG = 16


class Refused(Exception):
    """A value is refused; `place` is where, if that is told."""

    def __init__(self, number, place=None):
        super().__init__(number, place)
        self.number, self.place = number, place

    def text(self):
        return f"{self.number} {NAMES[self.number]}" + ("" if self.place is None else f" {self.place}")


def prefix(provider):
    return HEADS[provider[0]] + provider[1].encode() + b":"


def split(value):
    """The kind, the name and the body of a value with a prefix; None for one that has none."""
    for kind, head in HEADS.items():
        found = re.match(re.escape(head) + rb"([!-9;-~]{1,253}):", value)
        if found:
            return kind, found[1], value[found.end() :]
    return None


def reader_of(providers, value):
    """The provider of the list that reads the value, or None."""
    for provider in providers:
        if not value.startswith(MARK) if provider[0] == "identity" else value.startswith(prefix(provider)):
            return provider
    return None


def check_of(provider):
    """What a store keeps beside a value, so that another secret of the same name is told."""
    if len(provider) < 3 or not provider[2]:
        return bytes(8)
    return hmac.new(provider[2], provider[1].encode(), hashlib.sha256).digest()[:8]


# ---- sealing and reading


def run_cbc(secret, iv, data, opens):
    from cryptography.hazmat.primitives.ciphers import Cipher, algorithms, modes

    cipher = Cipher(algorithms.AES(secret), modes.CBC(iv))
    step = cipher.decryptor() if opens else cipher.encryptor()
    return step.update(data) + step.finalize()


def seal_gcm(secret, nonce, data, path):
    from cryptography.hazmat.primitives.ciphers.aead import AESGCM

    return AESGCM(secret).encrypt(nonce, data, path)


def seal(provider, path, data, draw, by_plugin=None):
    """The value of the data by the writing provider; `draw` gives so many random bytes, and `by_plugin` seals by the plugin of a
    name."""
    kind = provider[0]
    if kind == "kms":
        return by_plugin(provider[1], path, data, draw)
    if kind == "identity":
        if data.startswith(MARK):
            raise Refused(13)
        return data
    if kind == "aescbc":
        iv, fill = draw(BLOCK), BLOCK - len(data) % BLOCK
        return prefix(provider) + iv + run_cbc(provider[2], iv, data + bytes([fill]) * fill, False)
    nonce = draw(NONCE)
    return prefix(provider) + nonce + seal_gcm(provider[2], nonce, data, path)


def open_cbc(secret, body):
    if len(body) <= BLOCK:
        raise Refused(1)
    if len(body) % BLOCK:
        raise Refused(2)
    plain = run_cbc(secret, body[:BLOCK], body[BLOCK:], True)
    fill = plain[-1]
    if not 1 <= fill <= BLOCK or plain[-fill:] != bytes([fill]) * fill:
        raise Refused(3)
    return plain[:-fill]


def open_gcm(secret, path, body):
    from cryptography.exceptions import InvalidTag
    from cryptography.hazmat.primitives.ciphers.aead import AESGCM

    if len(body) < NONCE + TAG:
        raise Refused(1)
    try:
        return AESGCM(secret).decrypt(body[:NONCE], body[NONCE:], path)
    except InvalidTag:
        raise Refused(4) from None


def unseal(providers, path, value, by_plugin=None):
    """The data of a value, and whether it is stale; `by_plugin` reads a body by the plugin of a name."""
    for place, provider in enumerate(providers):
        if provider[0] == "identity":
            if not value.startswith(MARK):
                return value, place > 0
        elif value.startswith(prefix(provider)):
            body = value[len(prefix(provider)) :]
            if provider[0] == "kms":
                data, is_stale = by_plugin(provider[1], path, body)
                return data, is_stale or place > 0
            data = open_cbc(provider[2], body) if provider[0] == "aescbc" else open_gcm(provider[2], path, body)
            return data, place > 0
    raise Refused(12)


# ---- the encrypted object


def varint(data, at):
    """A varint and the place behind it, or None."""
    number = 0
    for group in range(10):
        if at >= len(data) or (group == 9 and data[at] > 1):
            return None
        number |= (data[at] & 127) << 7 * group
        at += 1
        if data[at - 1] < 128:
            return number, at
    return None


def field(data, at):
    """The number, the wire type and the payload of the field at a place, and the place behind it; or None."""
    key = varint(data, at)
    if key is None:
        return None
    number, kind, at = key[0] >> 3, key[0] & 7, key[1]
    if not 1 <= number <= 536_870_911:
        return None
    if kind == 0:
        found = varint(data, at)
        return found and (number, kind, *found)
    if kind == 2:
        size = varint(data, at)
        if size is None:
            return None
        size, at = size
    elif kind in (1, 5):
        size = 8 if kind == 1 else 4
    else:
        return None
    if size > len(data) - at:
        return None
    return number, kind, data[at : at + size], at + size


def judge_utf8(text, place):
    try:
        text.decode()
    except UnicodeDecodeError:
        raise Refused(11, place) from None


def annotation(data, place):
    """The key and the value of an annotation that stands at a place."""
    found, at = {1: b"", 2: b""}, 0
    while at < len(data):
        it = field(data, at)
        if it is None:
            raise Refused(5, place)
        number, kind, payload, at = it
        if kind == 2 and number in found:
            found[number] = payload
    judge_utf8(found[1], place)
    return found[1], found[2]


def read_object(data):
    """The object's fields by their numbers: bytes, bytes, bytes, a dict, a number."""
    single, annotations, at = {1: b"", 2: b"", 3: b"", 5: 0}, {}, 0
    while at < len(data):
        it = field(data, at)
        if it is None:
            raise Refused(5, at)
        number, kind, payload, behind = it
        if (number, kind) == (4, 2):
            key, value = annotation(payload, at)
            annotations[key] = value
        elif (number, kind) == (5, 0):
            single[5] = payload % 2**32
        elif kind == 2 and number in (1, 2, 3):
            if number == 2:
                judge_utf8(payload, at)
            single[number] = payload
        at = behind
    if not single[1]:
        raise Refused(10)
    for number, refusal in ((2, 6), (3, 7)):
        if not 1 <= len(single[number]) <= 1024:
            raise Refused(refusal)
    if len(annotations) > 256 or sum(len(key) + len(value) for key, value in annotations.items()) > 32_768:
        raise Refused(8)
    if single[5] not in (0, 1):
        raise Refused(9)
    return {**single, 4: annotations}


def printed(foreign):
    """A foreign text, as lines for people show it."""
    return bytes(byte if 0x20 <= byte <= 0x7E else ord("?") for byte in foreign)


def inspected(value):
    """The lines that `inspect` writes."""
    if not value.startswith(MARK):
        return b"plain %d\n" % len(value)
    parts = split(value)
    if parts is None:
        raise Refused(12)
    kind, name, body = parts
    lines = [b"%s %s %d" % (kind.encode(), name, len(body))]
    if kind == "kms":
        found = read_object(body)
        lines += [b"key-id " + printed(found[2]), b"source %d" % len(found[3])]
        lines += [b"annotation %s %d" % (printed(key), len(of)) for key, of in sorted(found[4].items())]
        lines += [b"type %d" % found[5], b"data %d" % len(found[1])]
    return b"".join(line + b"\n" for line in lines)
