#!/usr/bin/env python3
"""A plugin with several keys, for trying the exchange of a plugin's key: it reads the file that PLUGIN_KEYS names, `keys` where
that isn't set, of lines `ID SECRET`. The first wraps, and each unwraps what it wrapped. The file is read anew at each request. It
keeps nothing secret: the keys stand in a file."""
import base64
import hashlib
import hmac
import json
import os
import sys

NONCE, TAG = 16, 16


def keys():
    with open(os.environ.get("PLUGIN_KEYS", "keys"), encoding="utf-8") as file:
        return dict(line.split() for line in file if line.strip())


def stream(secret, nonce, size):
    made = b"".join(hmac.digest(secret.encode(), b"%d " % at + nonce, hashlib.sha256) for at in range(1 + size // 32))
    return made[:size]


def tag(secret, data):
    return hmac.digest(secret.encode(), b"tag " + data, hashlib.sha256)[:TAG]


def mask(secret, nonce, data):
    return bytes(one ^ other for one, other in zip(data, stream(secret, nonce, len(data))))


def wrap(secret, plain):
    nonce = os.urandom(NONCE)
    body = nonce + mask(secret, nonce, plain)
    return body + tag(secret, body)


def unwrap(secret, wrapped):
    body, found = wrapped[:-TAG], wrapped[-TAG:]
    if not hmac.compare_digest(found, tag(secret, body)):
        raise ValueError("tag")
    return mask(secret, body[:NONCE], body[NONCE:])


def answer(request):
    known = keys()
    first = next(iter(known))
    if request["call"] == "status":
        return {"healthz": "ok", "key_id": first, "version": "v2"}
    if request["call"] == "encrypt":
        wrapped = wrap(known[first], base64.b64decode(request["plaintext"], validate=True))
        return {"annotations": {}, "ciphertext": base64.b64encode(wrapped).decode(), "key_id": first}
    if request["key_id"] not in known:
        return {"error": "key id"}
    plain = unwrap(known[request["key_id"]], base64.b64decode(request["ciphertext"], validate=True))
    return {"plaintext": base64.b64encode(plain).decode()}


for line in sys.stdin:
    try:
        reply = answer(json.loads(line))
    except (KeyError, OSError, StopIteration, TypeError, ValueError):
        reply = {"error": "request"}
    print(json.dumps(reply, separators=(",", ":")), flush=True)
