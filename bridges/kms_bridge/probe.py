"""Asks each call once, and says of each answer whether the API server, and so kmsrest, would take it."""
import os

from reference import masking

from kms_bridge.annotations import first_breach
from kms_bridge.plugin import Answer, CallFailed, Plugin

SEED_SIZE = 32
KEY_ID_LIMIT = 1024
WRAPPED_LIMIT = 1024
ANNOTATIONS_LIMIT = 32_768


def _tell(call: str, breach: str | None, answer: Answer, words: str) -> bool:
    seconds = f"{answer.asking.seconds * 1000:.0f} ms"
    print(f"{call}: {'ok' if breach is None else breach}: {words}, {seconds}")
    return breach is None


def _key_id_breach(key_id: str) -> str | None:
    if 1 <= len(key_id.encode()) <= KEY_ID_LIMIT:
        return None
    return f"the key id hasn't 1 to {KEY_ID_LIMIT} bytes"


def _status_breach(version: str, healthz: str, key_id: str, versions: tuple[str, ...]) -> str | None:
    if version not in versions:
        return f"the version isn't {' or '.join(versions)}"
    if healthz != "ok":
        return "it isn't well"
    return _key_id_breach(key_id)


def _wrapped_breach(ciphertext: bytes, key_id: str, annotations: dict[str, bytes]) -> str | None:
    if not 1 <= len(ciphertext) <= WRAPPED_LIMIT:
        return f"the ciphertext hasn't 1 to {WRAPPED_LIMIT} bytes"
    breach = first_breach(annotations)
    if breach is not None:
        return f"the annotation key {masking.foreign(breach)!r} is no domain name"
    if sum(len(key.encode()) + len(value) for key, value in annotations.items()) > ANNOTATIONS_LIMIT:
        return f"the annotations have more than {ANNOTATIONS_LIMIT} bytes"
    return _key_id_breach(key_id)


def probe(plugin: Plugin, accept_v2beta1: bool) -> bool:
    """A line a call on standard output. True where each is well."""
    call = "status"
    try:
        answer = plugin.status()
        status = answer.response
        versions = ("v2", "v2beta1") if accept_v2beta1 else ("v2",)
        breach = _status_breach(status.version, status.healthz, status.key_id, versions)
        words = f"version {status.version!r}, healthz {masking.foreign(status.healthz)!r}, key id {status.key_id!r}"
        well = _tell(call, breach, answer, words)
        call = "encrypt"
        seed = os.urandom(SEED_SIZE)
        answer = plugin.encrypt(seed)
        wrapped = answer.response
        annotations = dict(wrapped.annotations)
        words = f"key id {wrapped.key_id!r}, {len(wrapped.ciphertext)} bytes, {len(annotations)} annotations"
        well = _tell(call, _wrapped_breach(wrapped.ciphertext, wrapped.key_id, annotations), answer, words) and well
        call = "decrypt"
        answer = plugin.decrypt(wrapped.ciphertext, wrapped.key_id, annotations)
        breach = None if answer.response.plaintext == seed else "these aren't the bytes that were wrapped"
        return _tell(call, breach, answer, f"{len(answer.response.plaintext)} bytes") and well
    except CallFailed as failed:
        print(f"{call}: {failed}")
        return False
