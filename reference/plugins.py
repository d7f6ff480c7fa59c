"""Plugins: the one in memory, published seeds, and the values that are sealed with them."""

import hashlib
import hmac

from .values import NONCE, TAG, Refused, open_gcm, prefix, printed, read_object, seal_gcm

SALT = b"test.kmsrest/salt"
SEED = 32
INFO = 32
MOST = 1_024


class Unhealthy(Exception):
    """A status breaks a rule; the first that it breaks, and what that part says."""

    def __init__(self, name, field, text):
        super().__init__(name, field, text)
        self.name, self.field, self.text = name, field, text

    def line(self):
        return f"text 45 {self.name} {self.field} " + printed(self.text.encode()).decode()


class Plugin:
    """Masks bytes by the sum of its key id and its salt. From calls of some numbers on, the first being 1, it has other key
    ids; `log` counts the calls, and raises what a failing call ends with."""

    def __init__(self, name, key_id, salt, status, key_ids, log):
        self.name, self.key_id, self.salt, self.told, self.key_ids, self.log = name, key_id, salt, status, key_ids, log

    def turn(self):
        self.key_id = self.key_ids.get(self.log.made + 1, self.key_id)

    def mask(self, data, key_id, annotations):
        by = (sum(key_id) + sum(annotations.get(SALT, b""))) % 256
        return bytes(byte ^ by for byte in data)

    def status(self):
        self.turn()
        self.log.call()
        return *self.told, self.key_id

    def wrap(self, plain):
        """The key id, the annotations and the source."""
        self.turn()
        key_id, annotations = self.key_id.encode(), {SALT: bytes([self.salt])}
        source = self.mask(plain, key_id, annotations)
        self.log.call(1 <= len(key_id) <= MOST and 1 <= len(source) <= MOST)
        return key_id, annotations, source

    def unwrap(self, key_id, annotations, source):
        self.turn()
        self.log.call()
        return self.mask(source, key_id, annotations)


class Kept:
    """A plugin that is asked once for each source; only so few are unwrapped here that all are kept."""

    def __init__(self, link):
        self.status, self.wrap, self.link, self.seeds = link.status, link.wrap, link, []

    def unwrap(self, *asked):
        found = next((seed for other, seed in self.seeds if other == asked), None)
        if found is None:
            found = self.link.unwrap(*asked)
            self.seeds.append((asked, found))
        return found


# ---- publishing


def names_in(entries):
    """The names of the plugins of all entries, by their bytes."""
    named = {provider[1] for _, providers in entries for provider in providers if provider[0] == "kms"}
    return sorted(named, key=str.encode)


def judge_status(name, version, healthz, key_id):
    if version != "v2":
        raise Unhealthy(name, "version", version)
    if healthz != "ok":
        raise Unhealthy(name, "healthz", healthz)
    if not 1 <= len(key_id.encode()) <= MOST:
        raise Unhealthy(name, "key_id", key_id)


def publish(links, draw):
    """A seed of each link, in their order: by the plugin's name, what it was wrapped to, and the seed."""
    made = {}
    for name, link in links.items():
        judge_status(name, *link.status())
        seed = draw(SEED)
        made[name] = (link.wrap(seed), seed)
    return made


# ---- sealing and reading


def expanded(seed, info):
    """HKDF-Expand with SHA-256 to 32 bytes, which is its first block."""
    return hmac.new(seed, info + b"\x01", hashlib.sha256).digest()


def varint(number):
    made = b""
    while number > 127:
        made += bytes([number & 127 | 128])
        number >>= 7
    return made + bytes([number])


def part(number, data):
    """A field of bytes; an empty one is left out."""
    return bytes([number << 3 | 2]) + varint(len(data)) + data if data else b""


def object_bytes(data, key_id, annotations, source, kind):
    """The one form in which an encrypted object is written."""
    made = part(1, data) + part(2, key_id) + part(3, source)
    for key, value in sorted(annotations.items()):
        inside = part(1, key) + part(2, value)
        made += b"\x22" + varint(len(inside)) + inside
    return made + (b"\x28" + varint(kind) if kind else b"")


def seal(published, name, path, data, draw):
    (key_id, annotations, source), seed = published[name]
    drawn = draw(INFO + NONCE)
    sealed = drawn + seal_gcm(expanded(seed, drawn[:INFO]), drawn[INFO:], data, path)
    return prefix(("kms", name)) + object_bytes(sealed, key_id, annotations, source, 1)


def object_of(body):
    """The object of a value. Where it breaks isn't told of a value that is read for its data."""
    try:
        return read_object(body)
    except Refused as no:
        raise Refused(no.number) from None


def unseal(published, links, name, path, body):
    """The data, and whether they are stale because of the key: by its kind, or since the plugin has another now."""
    found = object_of(body)
    asked = (found[2], found[4], found[3])
    wrapped, seed = published[name]
    if wrapped != asked:
        seed = links[name].unwrap(*asked)
    if len(seed) != SEED:
        raise Refused(15)
    data, is_key = found[1], found[5] == 0
    if is_key:
        return open_gcm(seed, path, data), True
    if len(data) < INFO + NONCE + TAG:
        raise Refused(1)
    return open_gcm(expanded(seed, data[:INFO]), path, data[INFO:]), found[2] != wrapped[0]
