#!/usr/bin/env python3
"""A plugin in a few lines: each byte of a seed xor the first byte of a key. It keeps nothing secret."""
import base64
import json
import sys

KEY, KEY_ID = 0x5A, "mask-1"


def mask(text):
    return base64.b64encode(bytes(byte ^ KEY for byte in base64.b64decode(text, validate=True))).decode()


def answer(request):
    call = request["call"]
    if call == "status":
        return {"healthz": "ok", "key_id": KEY_ID, "version": "v2"}
    if call == "encrypt":
        return {"annotations": {}, "ciphertext": mask(request["plaintext"]), "key_id": KEY_ID}
    if request["key_id"] != KEY_ID:
        return {"error": "key id"}
    return {"plaintext": mask(request["ciphertext"])}


for line in sys.stdin:
    try:
        reply = answer(json.loads(line))
    except (KeyError, TypeError, ValueError):
        reply = {"error": "request"}
    print(json.dumps(reply, separators=(",", ":")), flush=True)
