"""Objects as an API server writes them, values by Python's `cryptography`, and both read back by it and by openssl."""
import base64
import json
import os
from pathlib import Path

from cryptography.hazmat.primitives import padding
from cryptography.hazmat.primitives.ciphers import Cipher, algorithms, modes
from cryptography.hazmat.primitives.ciphers.aead import AESGCM
from support import call

KEY1, KEY2, WRONG = bytes(range(32)), bytes(range(32, 64)), b"another secret of the same name!"


def an_object(name: str, size: int = 40) -> bytes:
    """The start of an API server's object in protobuf, and bytes that aren't text behind it."""
    return b"k8s\0\x0a\x0c\x0a\x02v1\x12\x06Secret" + name.encode() + b"\n\xff\x00" + os.urandom(size)


def aescbc(key: bytes, name: str, data: bytes, iv: bytes | None = None) -> bytes:
    iv = iv or os.urandom(16)
    padder = padding.PKCS7(128).padder()
    encryptor = Cipher(algorithms.AES(key), modes.CBC(iv)).encryptor()
    body = encryptor.update(padder.update(data) + padder.finalize()) + encryptor.finalize()
    return f"k8s:enc:aescbc:v1:{name}:".encode() + iv + body


def aesgcm(key: bytes, name: str, data: bytes, path: str) -> bytes:
    nonce = os.urandom(12)
    return f"k8s:enc:aesgcm:v1:{name}:".encode() + nonce + AESGCM(key).encrypt(nonce, data, path.encode())


def padded_by_chance(key: bytes, name: str, data: bytes, wrong: bytes) -> bytes:
    """A value that another secret opens too, to rubbish: one of 256 is so."""
    while True:
        value = aescbc(key, name, data)
        body = value[value.index(b":v1:") + 5 + len(name) :]
        decryptor = Cipher(algorithms.AES(wrong), modes.CBC(body[-32:-16])).decryptor()
        last = decryptor.update(body[-16:]) + decryptor.finalize()
        if 1 <= last[-1] <= 16 and last.endswith(bytes([last[-1]]) * last[-1]):
            return value


def body_of(value: bytes, name: str) -> bytes:
    head = f"k8s:enc:aescbc:v1:{name}:".encode()
    if not value.startswith(head):
        raise ValueError(value[:40])
    return value[len(head) :]


def by_cryptography(key: bytes, name: str, value: bytes) -> bytes:
    body = body_of(value, name)
    decryptor = Cipher(algorithms.AES(key), modes.CBC(body[:16])).decryptor()
    unpadder = padding.PKCS7(128).unpadder()
    return unpadder.update(decryptor.update(body[16:]) + decryptor.finalize()) + unpadder.finalize()


def by_openssl(key: bytes, name: str, value: bytes) -> bytes:
    body = body_of(value, name)
    return call(["openssl", "enc", "-d", "-aes-256-cbc", "-K", key.hex(), "-iv", body[:16].hex()], body[16:]).output


def write_configuration(file: Path, providers: list, resources: tuple = ("secrets",)) -> Path:
    """A configuration of one entry, in JSON. A provider is `identity`, a kind with its keys, or a plugin's endpoint."""
    elements = []
    for kind, told in providers:
        if kind == "identity":
            elements.append({"identity": {}})
        elif kind == "kms":
            # (so long that each answer is there before)
            elements.append({"kms": {"apiVersion": "v2", "name": told[0], "endpoint": told[1], "timeout": "120s"}})
        else:
            keys = [{"name": name, "secret": base64.b64encode(key).decode()} for name, key in told]
            elements.append({kind: {"keys": keys}})
    tree = {
        "apiVersion": "apiserver.config.k8s.io/v1",
        "kind": "EncryptionConfiguration",
        "resources": [{"resources": list(resources), "providers": elements}],
    }
    file.write_text(json.dumps(tree))
    return file
