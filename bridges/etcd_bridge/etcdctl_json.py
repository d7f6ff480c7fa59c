"""What `etcdctl .. -w json` writes."""

import base64
import binascii
import json
from collections.abc import Iterator

from .errors import NoAnswer
from .keys import KeyValue
from .maps import is_count, is_number

MOST_CLUSTER = 2**64 - 1


def parsed(content: bytes, program: str) -> object:
    try:
        return json.loads(content)
    except (ValueError, RecursionError):
        raise NoAnswer(f"{program} writes no JSON of etcdctl") from None


def header_of(answer: object, program: str) -> tuple[int, int]:
    """The cluster's id and the revision of an answer."""
    header = answer.get("header") if isinstance(answer, dict) else None
    cluster, revision = (header.get(name) for name in ("cluster_id", "revision")) if isinstance(header, dict) else (None, None)
    is_id = isinstance(cluster, int) and not isinstance(cluster, bool) and 0 <= cluster <= MOST_CLUSTER
    if not is_id or not is_count(revision):
        raise NoAnswer(f"{program} writes no JSON of etcdctl")
    return cluster, revision


def answer_of(content: bytes, program: str) -> dict:
    """An answer with its header."""
    answer = parsed(content, program)
    header_of(answer, program)
    return answer


def decoded(text: object) -> bytes:
    if not isinstance(text, str):
        raise TypeError
    return base64.b64decode(text, validate=True)


def keys_and_values(answer: object) -> Iterator[KeyValue]:
    """What an answer to a range holds."""
    try:
        for one in answer.get("kvs", ()):
            found = KeyValue(decoded(one["key"]), decoded(one.get("value", "")), one["mod_revision"], one["create_revision"])
            if not (is_number(found.mod) and is_number(found.create)):
                raise TypeError
            yield found
    except (KeyError, TypeError, AttributeError, binascii.Error, ValueError):
        raise NoAnswer("the JSON has a key without its bytes, its value or its revisions") from None
