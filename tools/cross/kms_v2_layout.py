"""A stored value of KMS v2 as Kubernetes publishes it, laid out byte by byte, by Python's `cryptography` alone.

The layout is that of the design of KMS v2 and of its message EncryptedObject: the prefix, then the fields of a message of protocol
buffers in their order, each a key byte (number << 3 | wire type), a length and its bytes. Nothing of kmsrest or of reference/ is
asked here, and no library of protocol buffers either."""
from dataclasses import dataclass

from cryptography.hazmat.primitives.ciphers.aead import AESGCM
from cryptography.hazmat.primitives.hashes import SHA256
from cryptography.hazmat.primitives.hmac import HMAC

PREFIX = b"k8s:enc:kms:v2:p:"
SEED, INFO, NONCE = bytes(range(32)), bytes(range(64, 96)), bytes(range(128, 140))
PATH = b"/registry/secrets/default/by-hand"
DATA = b"k8s\0\x0a\x0c\x0a\x02v1\x12\x06Secret"
TAG = 16


class OtherLayout(Exception):
    """A value isn't laid out so."""


@dataclass(frozen=True)
class Parts:
    """What a value is made of: the seed or the key that a plugin wrapped, and how; its key id; an annotation, if it has one."""

    wrapped: bytes
    key_id: bytes
    annotation: tuple[bytes, bytes] | None = None
    is_seed: bool = True


def derived(seed: bytes, info: bytes) -> bytes:
    """HKDF-Expand of RFC 5869 for 32 bytes: one HMAC of the info and the byte 1."""
    code = HMAC(seed, SHA256())
    code.update(info + b"\x01")
    return code.finalize()


def short(key: int, content: bytes) -> bytes:
    """A field of fewer than 128 bytes, whose length is one byte."""
    if len(content) > 127:
        raise OtherLayout(f"{len(content)} bytes")
    return bytes([key, len(content)]) + content


def encrypted_data(is_seed: bool) -> bytes:
    """Of a seed: 32 bytes of info, nonce, ciphertext and tag under the derived key. Of a key: nonce, ciphertext and tag."""
    key, begin = (derived(SEED, INFO), INFO) if is_seed else (SEED, b"")
    return begin + NONCE + AESGCM(key).encrypt(NONCE, DATA, PATH)


def value(parts: Parts) -> bytes:
    """encryptedData is 1, keyID 2, encryptedDEKSource 3, annotations 4 and encryptedDEKSourceType 5; 0 is left out."""
    fields = short(0x0A, encrypted_data(parts.is_seed)) + short(0x12, parts.key_id) + short(0x1A, parts.wrapped)
    if parts.annotation is not None:
        name, content = parts.annotation
        fields += short(0x22, short(0x0A, name) + short(0x12, content))
    return PREFIX + fields + (b"\x28\x01" if parts.is_seed else b"")


def inspected(parts: Parts) -> bytes:
    """What kmsrest says of it."""
    lines = [f"kms p {len(value(parts)) - len(PREFIX)}", f"key-id {parts.key_id.decode()}", f"source {len(parts.wrapped)}"]
    if parts.annotation is not None:
        lines.append(f"annotation {parts.annotation[0].decode()} {len(parts.annotation[1])}")
    lines += [f"type {int(parts.is_seed)}", f"data {len(encrypted_data(parts.is_seed))}"]
    return ("\n".join(lines) + "\n").encode()


def taken_apart(made: bytes, key_id: bytes, unwrap) -> bytes:
    """The data of a small value that kmsrest made of a seed, each of whose bytes must stand where it stands above."""
    size = 32 + len(NONCE) + len(DATA) + TAG
    places = {"prefix": PREFIX, "data": bytes([0x0A, size]), "key id": short(0x12, key_id), "source": b"\x1a\x20", "type": b"\x28\x01"}
    at = 0
    found: dict[str, bytes] = {}
    for name, wanted in places.items():
        if made[at : at + len(wanted)] != wanted:
            raise OtherLayout(f"{name} at {at}: {made[at : at + len(wanted)]!r}")
        at += len(wanted)
        room = {"data": size, "source": 32}.get(name, 0)
        found[name] = made[at : at + room]
        at += room
    if at != len(made):
        raise OtherLayout(f"{len(made) - at} bytes more")
    sealed = found["data"]
    key = derived(unwrap(found["source"]), sealed[:32])
    return AESGCM(key).decrypt(sealed[32:44], sealed[44:], PATH)
