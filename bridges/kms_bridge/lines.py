"""kmsrest's lines of plugins (docs/FORMATS.md): requests as they are read, replies as they are written."""
import base64
import binascii
import json
from collections.abc import Mapping
from dataclasses import dataclass, field

# The most bytes of a reply that kmsrest reads, without its LF.
REPLY_LIMIT = 131_072


class NoRequest(ValueError):
    """The line is no request. Its text never has what stood in the line."""


@dataclass(frozen=True)
class Status:
    """How is the plugin, and which key does it write by?"""


@dataclass(frozen=True)
class Encrypt:
    """Wrap these bytes."""

    plaintext: bytes = field(repr=False)
    uid: str


@dataclass(frozen=True)
class Decrypt:
    """Unwrap what was wrapped under this key id with these annotations."""

    ciphertext: bytes
    key_id: str
    annotations: Mapping[str, bytes]
    uid: str


Request = Status | Encrypt | Decrypt


def _text(members: Mapping[str, object], name: str) -> str:
    value = members.get(name)
    if not isinstance(value, str):
        raise NoRequest(f"{name} is no text")
    try:
        value.encode()
    except UnicodeEncodeError:
        raise NoRequest(f"{name} is no text in UTF-8") from None
    return value


def _bytes(members: Mapping[str, object], name: str) -> bytes:
    try:
        return base64.b64decode(_text(members, name), validate=True)
    except (binascii.Error, ValueError):
        raise NoRequest(f"{name} isn't base64") from None


def _uid(members: Mapping[str, object]) -> str:
    uid = _text(members, "uid")
    if not (uid.isascii() and uid.isdigit()):
        raise NoRequest("uid is no number")
    return uid


def _annotations(members: Mapping[str, object]) -> dict[str, bytes]:
    pairs = members.get("annotations")
    if not isinstance(pairs, dict):
        raise NoRequest("annotations are no object")
    return {_text({"annotation": key}, "annotation"): _bytes(pairs, key) for key in pairs}


def read_request(line: bytes) -> Request:
    """The request of a line, with or without its LF."""
    try:
        members = json.loads(line)
    except (ValueError, RecursionError):
        raise NoRequest("it is no JSON") from None
    if not isinstance(members, dict):
        raise NoRequest("it is no object")
    match members.get("call"):
        case "status":
            return Status()
        case "encrypt":
            return Encrypt(_bytes(members, "plaintext"), _uid(members))
        case "decrypt":
            return Decrypt(
                _bytes(members, "ciphertext"), _text(members, "key_id"), _annotations(members), _uid(members)
            )
    raise NoRequest("its call is none of status, encrypt and decrypt")


def _line(members: Mapping[str, object]) -> bytes:
    line = json.dumps(members, separators=(",", ":"), sort_keys=True, ensure_ascii=False).encode()
    if len(line) > REPLY_LIMIT:
        return error_line(f"the answer has more than {REPLY_LIMIT} bytes")
    return line + b"\n"


def _base64(data: bytes) -> str:
    return base64.b64encode(data).decode()


def status_line(version: str, healthz: str, key_id: str) -> bytes:
    """The reply to status."""
    return _line({"healthz": healthz, "key_id": key_id, "version": version})


def encrypt_line(ciphertext: bytes, key_id: str, annotations: Mapping[str, bytes]) -> bytes:
    """The reply to encrypt."""
    pairs = {key: _base64(value) for key, value in annotations.items()}
    return _line({"annotations": pairs, "ciphertext": _base64(ciphertext), "key_id": key_id})


def decrypt_line(plaintext: bytes) -> bytes:
    """The reply to decrypt."""
    return _line({"plaintext": _base64(plaintext)})


def error_line(text: str) -> bytes:
    """A refusal, to any."""
    return _line({"error": text[:1000]})
