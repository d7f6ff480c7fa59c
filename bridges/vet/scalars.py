"""How the API server reads what stands in a file: plain scalars of YAML, endpoints and durations. It is written in Go, so these
are the rules of Go's libraries."""

import math
import re
import string

from kms_bridge.durations import seconds_of
from reference.yaml_profile import Scalar

TRUTHS = {
    word: value
    for value, names in ((True, "y yes true on"), (False, "n no false off"))
    for name in names.split()
    for word in (name, name.capitalize(), name.upper())
}
NOTHING = ("", "~", "null", "Null", "NULL")
SPECIAL = {sign + word for sign in ("", "+", "-") for word in (".inf", ".Inf", ".INF")} | {".nan", ".NaN", ".NAN"}
FLOAT = re.compile(r"[-+]?(\.[0-9]+|[0-9]+(\.[0-9]*)?)([eE][-+]?[0-9]+)?")
INTEGER = re.compile(r"[-+]?(0[xX][0-9a-fA-F]+|0[bB][01]+|0[oO]?[0-7]+|0|[1-9][0-9]*)")
MOST_INTEGER = 2**64


# ---- plain scalars


def number_of(text: str) -> float | None:
    """The number that a plain scalar is, if it is one."""
    bare = text.replace("_", "")
    if text in SPECIAL:
        return math.inf
    if not text[:1] or text[0] not in "+-.0123456789":
        return None
    if INTEGER.fullmatch(bare):
        digits, base = bare.lower().lstrip("+-"), 10
        if digits.startswith(("0x", "0b", "0o")):
            base = {"x": 16, "b": 2, "o": 8}[digits[1]]
        elif digits.startswith("0") and len(digits) > 1:
            digits, base = "0o" + digits[1:], 8
        found = int(digits, base)
        if found < MOST_INTEGER:
            return -found if bare.startswith("-") else found
    found = float(bare) if FLOAT.fullmatch(bare) else math.inf
    if math.isinf(found):
        return None
    return int(found) if found.is_integer() else found


def is_plain(scalar: object) -> bool:
    return isinstance(scalar, Scalar) and scalar.written[:1] not in ("'", '"')


def value_of(node: object) -> object:
    """What the API server's library makes of a node: of a plain scalar a truth value, a number or nothing, where it looks so."""
    if not is_plain(node):
        return node
    text = str(node).rstrip("\t")
    if text in NOTHING:
        return None
    if text in TRUTHS:
        return TRUTHS[text]
    found = number_of(text)
    return text if found is None else found


def is_count(value: object) -> bool:
    """Whether a value is a whole number of 32 bits, and not 0. (In JSON one with a point is none.)"""
    return isinstance(value, int) and not isinstance(value, bool) and -(2**31) <= value < 2**31 and value != 0


# ---- endpoints

HEX = set(string.hexdigits)
HOST = set(string.ascii_letters + string.digits + "-_.~!$&'()*+,;=:[]<>\"")


def escape_fault(text: str, is_host: bool = False) -> str | None:
    """Why Go takes no such part of a URL."""
    at = 0
    while at < len(text):
        if text[at] == "%":
            pair = text[at + 1 : at + 3]
            if len(pair) < 2 or not set(pair) <= HEX:
                return "a % without two digits of base 16 behind it"
            if is_host and int(pair[0], 16) < 8 and pair != "25":
                return "an escape in the part before the path"
            at += 3
            continue
        if is_host and ord(text[at]) < 0x80 and text[at] not in HOST:
            return "a character that no host's name may have"
        at += 1
    return None


def host_fault(host: str) -> str | None:
    """Why Go takes no such host behind the two slashes."""
    if host.startswith("["):
        if "]" not in host:
            return "a [ that isn't closed"
        port = host.rpartition("]")[2]
    else:
        port = host[host.rindex(":") :] if ":" in host else ""
    if port and not re.fullmatch(r":[0-9]*", port):
        return "a port that is no number"
    return escape_fault(host, True)


def endpoint_fault(text: str) -> str | None:
    """Why an endpoint that begins `unix://` is no URL to the API server, or None."""
    if any(ord(mark) < 0x20 or ord(mark) == 0x7F for mark in text):
        return "a control character"
    rest, _, fragment = text.removeprefix("unix://").partition("#")
    rest = rest.partition("?")[0]
    authority, slash, path = rest.partition("/")
    user, at, host = authority.rpartition("@")
    if at and not re.fullmatch(r"[A-Za-z0-9\-._:~!$&'()*+,;=%@]*", user):
        return "a user's name of other characters than may stand there"
    return host_fault(host) or escape_fault(user) or escape_fault(slash + path) or escape_fault(fragment)


def host_of(text: str) -> str:
    """What stands between the two slashes and the path, which the API server doesn't use."""
    return re.split("[/?#]", text.removeprefix("unix://"), maxsplit=1)[0]


# ---- durations


def is_duration(node: object) -> bool:
    """Whether a timeout is a duration above zero, or nothing."""
    if node is None:
        return True
    if not isinstance(node, str):
        return False
    try:
        seconds_of(node)
    except ValueError:
        return False
    return True
