"""What may be shown of a file that holds secrets, and of foreign words. Each quotation of a file goes through `line`, `scalar`,
`endpoint` or `resource`: a word that configurations have is shown, of anything else the first few characters, and nothing behind
a line's first word. `hide` is the last line of defence: it masks in a text that is done each run that stands in a secret too."""

import base64
import difflib
import os
import re
import sys
import threading

# No so many characters in a row of a secret are shown, wherever they are found.
RUN = 6
# How much of a word is shown that nobody knows.
FEW = 4
# From so many characters on, a word of a file is taken for a secret by its looks alone.
LONG = 16
MASK = ".."

MEMBERS = "apiVersion kind resources providers keys name secret endpoint timeout cachesize".split()
KINDS = "identity aescbc aesgcm secretbox kms".split()
VALUES = "EncryptionConfiguration EncryptionConfig apiserver.config.k8s.io/v1 apiserver.config.k8s.io/v1beta1 v1 v2 v3 v1beta1 v2beta1 null true false".split()
RESOURCES = (
    "secrets configmaps events pods services endpoints nodes namespaces serviceaccounts deployments statefulsets daemonsets replicasets "
    "jobs cronjobs ingresses leases roles rolebindings clusterroles clusterrolebindings customresourcedefinitions persistentvolumes "
    "persistentvolumeclaims apps batch policy extensions autoscaling networking rbac authorization storage apiextensions coordination k8s io"
).split()
FLEET = "fleet replica worker put get delete rewrite refresh reload join leave".split()
KNOWN = frozenset(MEMBERS + KINDS + VALUES + RESOURCES + FLEET)
NEAR_TO = sorted(word for word in KNOWN if len(word) > 3)
MARKS = frozenset(("", "{}", "[]", "{", "[", "}", "]", "*", "*.", "*.*", "-", "~", "|", ">", "---", "..."))
# Members whose values are names that everybody may read, as the program's own lines have them.
OPEN = frozenset(MEMBERS + KINDS) - {"secret"}
SCHEMES = ("unix", "unixs", "tcp", "http", "https", "file", "npipe", "grpc", "dns", "vsock")


# ---- single words


def printable(text):
    return "".join(mark if mark.isprintable() else "?" for mark in str(text))


def is_resource_word(text):
    labels = re.split("[./]", text.removeprefix("*.").rstrip("."))
    return all(label in KNOWN for label in labels)


def near(text):
    """The known word that this one is, but for a slip; or None."""
    if not 3 < len(text) <= 30 or not text.isprintable():
        return None
    return next(iter(difflib.get_close_matches(text, NEAR_TO, 1, 0.8)), None)


def is_exact(text):
    """Whether configurations have a word."""
    word = text.strip("\"'")
    return word in KNOWN or word in MARKS or is_resource_word(word.lower())


def is_known(text):
    """Whether a word may be shown as it is: configurations have it, or one that is it but for a slip."""
    return is_exact(text) or bool(near(text.strip("\"'")))


def shown(text):
    """A word of a file without quotes around it."""
    text = printable(text)
    return text if is_known(text) or len(text) <= FEW else text[:FEW] + MASK


def scalar(text):
    """A scalar of a file for people."""
    text = printable(text)
    return f"`{text}`" if is_known(text) or len(text) <= FEW else f"`{text[:FEW]}`{MASK}"


def name(text):
    """A name that a provider has, which the program prints too: whole, but where it looks like a secret in the wrong place."""
    text = printable(text)
    return scalar(text) if len(text) > 253 or any(looks_secret(word) for word in LONG_WORD.findall(text)) else f"`{text}`"


def bare(text):
    """A word of a call without quotes around it: whole, but where it looks like a secret."""
    return name(text).replace("`", "")


def endpoint(text):
    """An endpoint: its scheme, which is what a rule speaks of."""
    scheme, separator, _rest = text.partition("://")
    return f"`{scheme}://{MASK}`" if separator and scheme.lower() in SCHEMES else scalar(text)


# ---- lines

LEAD = re.compile(r"""(\s*(?:-\s+|[{\[,]\s*)*)(.*)""", re.S)
WORD = re.compile(r"""(["']?)([^\s:"'{}\[\],]*)\1(\s*:)?(.*)""", re.S)


def line(text):
    """A line of a file for people: its first word, and behind that nothing but a word that is known."""
    lead, body = LEAD.fullmatch(printable(text.strip("\r\n")).strip()).groups()
    quote, word, colon, rest = WORD.fullmatch(body).groups()
    if is_known(word):
        first = quote + word + quote
    else:
        begun = next((known for known in sorted(OPEN | {"secret"}, key=len, reverse=True) if word.startswith(known)), "")
        first = begun + MASK if begun else word[:FEW] + MASK * (len(word) > FEW) if colon else MASK * bool(word)
    value = rest.strip()
    is_secret = word == "secret" or near(word) == "secret"
    behind = rest if value in MARKS or (is_exact(value) and not is_secret) else (" " if rest.startswith(" ") else "") + MASK
    return f"`{lead}{first}{colon or ''}{behind}`" if lead or first or behind else "an empty line"


def fleet_line(text):
    """A line of a fleet file for people: its first word."""
    words = text.split()
    return f"`{shown(words[0])}{' ' + MASK if len(words) > 1 else ''}`" if words else "an empty line"


# ---- what a file holds that may be secret

OPEN_MEMBER = re.compile(r"""(?<![A-Za-z])["']?(""" + "|".join(sorted(OPEN, key=len, reverse=True)) + r""")["']?\s*:(?=[\s"'\[{]|$)""")
MEMBER = re.compile(r"""^[\s\-{\[,]*["']?[A-Za-z]*["']?\s*:?\s*""")
LONG_WORD = re.compile(r"[A-Za-z0-9+/_=-]{%d,}" % LONG)
ITEM = re.compile(r"""-*|["']?[a-z*][a-z0-9.*-]*["']?""")


def looks_secret(word):
    """A long word of base64: it ends in its padding, or has letters of both kinds, and digits or marks."""
    kinds = sum(bool(re.search(kind, word)) for kind in ("[a-z]", "[A-Z]", "[0-9+/]"))
    return word.endswith("=") or kinds == 3


def is_items(text):
    """Whether a part of a line holds items of a list alone, such as resources have. (Word by word: one expression over all of them
    could be tried in too many ways.)"""
    return all(ITEM.fullmatch(word) for word in re.split(r"[\s,\[\]{}]+", re.sub(r"(^|\s)#.*", "", text)))


def pieces(text):
    """Each piece of a configuration that may be of a secret: what stands behind no member whose value is open, and long words of
    base64 wherever they stand."""
    for one in re.split(r"\r\n|\n|\r", text):
        at, parts = 0, []
        is_open = False
        for found in OPEN_MEMBER.finditer(one):
            parts.append((is_open, one[at : found.start()]))
            at, is_open = found.end(), True
        parts.append((is_open, one[at:]))
        for is_value, part in parts:
            if is_value or is_items(part):
                yield from (word for word in LONG_WORD.findall(part) if looks_secret(word))
            elif not is_known(part.strip(" \t-,\"'[]{}")):
                yield part[MEMBER.match(part).end() :]


def fleet_pieces(text):
    """Each piece of a fleet file that may be of an object's data: what its `put` lines end with, and long words of base64."""
    for one in text.splitlines():
        words = one.split()
        if words and words[0] not in ("replica", "worker", "reload", "join", "leave", "get", "delete"):
            yield from (word for word in words[1:] if not word.startswith("/registry/") and not is_resource_word(word))


# ---- the last line of defence


# From so many runs on that are looked for, going once over all secrets is quicker than looking for each.
MANY = 200


def held_runs(runs, secrets):
    """Those of the runs that stand in a secret."""
    held = "\n".join(secrets)
    if len(runs) < MANY:
        return {run for run in runs if run in held}
    return {run for at in range(len(held) - RUN + 1) if (run := held[at : at + RUN]) in runs}


def hide(text, secrets, known=""):
    """The text, without any run of RUN characters that stands in a secret too and not in what is known."""
    runs = {text[at : at + RUN] for at in range(len(text) - RUN + 1)}
    leaked = held_runs({run for run in runs if "\n" not in run and run not in known and run.lower() not in known}, secrets)
    if not leaked:
        return text
    masked = [False] * len(text)
    for at in range(len(text) - RUN + 1):
        if text[at : at + RUN] in leaked:
            masked[at : at + RUN] = [True] * RUN
    return "".join("" if hidden and at and masked[at - 1] else MASK if hidden else text[at] for at, hidden in enumerate(masked))


# How bytes are written in quotes: the letters behind a backslash for some of them, as Python has them and as C and Go do, the others by
# these digits, and a backslash before these quotes.
OF_PYTHON = {9: "t", 10: "n", 13: "r", 0x5C: "\\"}
OF_C = {7: "a", 8: "b", **OF_PYTHON, 11: "v", 12: "f"}
IN_HEX, IN_OCTAL, IN_UNICODE = "\\x{:02x}", "\\{:03o}", "\\u{:04x}"
ANY_QUOTES = ("", "'", '"', "'\"")
WAYS = (
    ({}, IN_HEX, ("",)),
    (OF_PYTHON, IN_HEX, ANY_QUOTES),
    (OF_C, IN_HEX, ANY_QUOTES),
    (OF_C, IN_OCTAL, ANY_QUOTES),
    (OF_C, IN_UNICODE, ("", '"')),
)


def escapes(letters, digits, quotes):
    """What each byte is written as."""
    row = {**{byte: f"\\{letter}" for byte, letter in letters.items()}, **{ord(quote): f"\\{quote}" for quote in quotes}}
    return tuple(row.get(byte) or (chr(byte) if 0x20 <= byte <= 0x7E else digits.format(byte)) for byte in range(256))


ESCAPES = [escapes(letters, digits, quotes) for letters, digits, kinds in WAYS for quotes in kinds]


def forms(data):
    """The forms in which bytes may stand in a text: as they are, escaped, in base64, in hex, as numbers."""
    whole = "".join(f"\\x{byte:02x}" for byte in data)
    in_hex = [data.hex(*between) for between in ((), (" ",), (":",), ("-",))]
    numbers = [between.join(map(str, data)) for between in (" ", ",", ", ")]
    escaped = ["".join(map(texts.__getitem__, data)) for texts in ESCAPES]
    in_base64 = [base64.b64encode(data).decode(), base64.urlsafe_b64encode(data).decode()]
    return [data.decode("latin-1"), data.decode(errors="replace"), whole, *escaped, *in_base64] + in_hex + [text.upper() for text in in_hex] + numbers


# What may be a key in words that aren't ours: a long word of base64 or hex, and bytes one by one, escaped, in hex or as numbers.
KEY_WORD = re.compile(r"[A-Za-z0-9+/=_-]{20,}")
ESCAPED = r"\\(?:x[0-9a-fA-F]{2}|u[0-9a-fA-F]{4}|[0-7]{3}|[abfnrtv'\"\\])"
BYTES = re.compile(
    rf"(?:{ESCAPED}[^\\]{{0,12}}){{4,}}"
    r"|(?<![0-9A-Za-z])(?:(?:0x)?[0-9a-fA-F]{2}[ ,:;-]{1,2}){6,}(?:0x)?[0-9a-fA-F]{2}"
    r"|(?<![0-9A-Za-z])(?:[0-9]{1,3}(?:, ?| )){8,}[0-9]{1,3}"
)


def key_word(found):
    word = found[0]
    return word[:FEW] + MASK if looks_secret(word) or re.fullmatch("[0-9a-fA-F]{32,}", word) else word


def foreign(text, secrets=()):
    """Words of a plugin or of a server, in one line: without what it was given in confidence, and without what looks like a key."""
    held = [form for data in secrets for form in forms(data)]
    # (twice: what isn't printable parts a run, or is a part of one)
    text = hide(printable(hide(str(text), held)), held)
    return KEY_WORD.sub(key_word, BYTES.sub(MASK, text))


# ---- faults of these programs themselves


def fault_line(program, kind, trace):
    """One line of a fault of a program's own: what kind it is and where it was raised, and nothing of its values."""
    places = []
    while trace:
        places.append(f"{os.path.basename(trace.tb_frame.f_code.co_filename)}:{trace.tb_lineno}")
        trace = trace.tb_next
    return f"{program}: a fault of its own: {kind.__name__} at {' '.join(places[-6:])}; please report this line"


def guard(program):
    """A Python error that nobody takes ends the program with one line, and not with a trace that shows values."""

    def told(kind, _error, trace):
        if issubclass(kind, KeyboardInterrupt):
            return
        try:
            print(fault_line(program, kind, trace), file=sys.stderr)
        except OSError:
            pass

    sys.excepthook = told
    threading.excepthook = lambda it: told(it.exc_type, it.exc_value, it.exc_traceback)
    sys.unraisablehook = lambda it: told(it.exc_type, it.exc_value, it.exc_traceback)
