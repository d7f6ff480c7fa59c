"""What is allowed, and dangerous: what the change does to resources that were sealed, keys that are no secrets, and endpoints, keys
and files that somebody must look after."""

import datetime
import hashlib
import re
from collections.abc import Iterator

from reference import rollout

from .document import Document, Key, Path, elements, entry_of, keys, line_of_class, name_text, pattern_text, provider_text
from .lints import BY_CODE, Finding

NEW_SECRET = "head -c 32 /dev/urandom | base64 makes a secret"
# Secrets of Kubernetes' pages, by their SHA-256; those of examples/ here are bytes that count up.
PUBLIC = {
    "66337256703eecc9d5e12f8b85a02fc86d98c832137fc075a9566dcc9dc8eb36",
    "15a1b278f7e9cd1525e75fd9182d7bc0c6c00e4fa9e678c2184655491f98f1a2",
    "f6d527e6d01865481134f29788be2afe7fc3c702e1a55d7ceafac5f35199e8dc",
}
# A comment that says until when a key is to be exchanged, on one of its lines or on the line above.
PLANNED = re.compile(r"#.*\b(?:exchange|rotate|replace)d?\W+(?:by|before)\W+(\d{4}-\d{2}-\d{2})\b", re.I)
PRINTABLE = set(range(0x20, 0x7F)) | set(b"\t\r\n")


def found_at(document: Document, code: str, path: Path, text: str, do: str) -> Finding:
    return Finding(BY_CODE[code], document.name, document.line(*path), text, do)


# ---- what the change does


def written_in_the_clear(base: Document, new: Document) -> Iterator[Finding]:
    """Classes that were sealed; and entries that seal nothing though they have a key."""
    told = set()
    for one in rollout.classes_of(base.entries, new.entries):
        before, after = rollout.list_at(base.entries, one)[0], rollout.list_at(new.entries, one)[0]
        if before[0] != "identity" and after[0] == "identity":
            told.add(entry_of(new, one))
            text = f"{pattern_text(one)} was sealed by {provider_text(before)}, and is written in the clear from now on"
            yield Finding(BY_CODE["in-the-clear"], new.name, line_of_class(new, one), text, "put the key first, if that isn't meant")
    for number, (_listed, providers) in enumerate(new.entries):
        if providers[0][0] == "identity" and len(providers) > 1 and number not in told:
            text = f"identity comes first, so {provider_text(providers[1])} seals nothing: all is written in the clear"
            do = "put the key first, unless this is the step before that"
            yield found_at(new, "identity-first", ("resources", number, "providers", 0), text, do)


# ---- keys


def is_count(secret: bytes) -> bool:
    """Whether each byte is one more than that before it, as in examples."""
    return all(later == (earlier + 1) % 256 for earlier, later in zip(secret, secret[1:]))


def weakness(secret: bytes) -> tuple[str, str] | None:
    """The code and the text of a secret that anybody can guess."""
    if is_count(secret) or hashlib.sha256(secret).hexdigest() in PUBLIC:
        return "example-secret", "stands in documentation, so everybody has it"
    if len(set(secret)) == 1:
        return "zero-secret", "has one byte again and again"
    if set(secret) <= PRINTABLE:
        return "text-secret", "is text that somebody typed, and no random bytes"
    return None


def weak_secrets(new: Document) -> Iterator[Finding]:
    seen = set()
    for key in keys(new):
        found = weakness(key.secret)
        if found and (key.shown, key.secret) not in seen:
            seen.add((key.shown, key.secret))
            yield found_at(new, found[0], (*key.path, "secret"), f"the secret of {key.shown} {found[1]}", NEW_SECRET)


def shared_secrets(base: Document, new: Document) -> Iterator[Finding]:
    """Two names of one secret: an exchange of the one for the other exchanges nothing."""
    first: dict[bytes, tuple[Key, str]] = {}
    for document, where in ((base, f" in {base.name}"), (new, "")):
        for key in keys(document):
            first.setdefault(key.secret, (key, where))
            other, place = first[key.secret]
            if document is new and (other.kind, other.name) != (key.kind, key.name):
                text = f"{key.shown} has the secret that {other.shown} has{place}: they are one key"
                yield found_at(new, "one-secret", (*key.path, "secret"), text, NEW_SECRET)
                first[key.secret] = (key, "")


def is_planned(new: Document, key: Key, today: datetime.date) -> bool:
    """Whether a comment at the key says until when it is exchanged, and that is to come."""
    lines = {new.line(*key.path), *(new.line(*key.path, name) for name in ("name", "secret"))}
    for number in sorted(lines | {min(lines) - 1}):
        found = PLANNED.search(new.rows[number - 1]) if number else None
        try:
            if found and datetime.date.fromisoformat(found[1]) > today:
                return True
        except ValueError:
            continue
    return False


def counted_writes(new: Document, today: datetime.date) -> Iterator[Finding]:
    """Keys of aesgcm that write, and that nobody planned to exchange."""
    writers = {(providers[0][0], providers[0][1]) for _listed, providers in new.entries}
    seen = set()
    for key in keys(new):
        who = (key.kind, key.name)
        if key.kind == "aesgcm" and who in writers and who not in seen and not is_planned(new, key, today):
            seen.add(who)
            text = f"{key.shown} writes, and may write 200,000 times: nothing here says when it is exchanged"
            yield found_at(new, "aesgcm-writes", (*key.path, "name"), text, "say it at the key in a comment: # exchange by YYYY-MM-DD")


# ---- endpoints and files


def placeholders(new: Document) -> Iterator[Finding]:
    for it in elements(new):
        if it.kind == "kms" and it.node["endpoint"] == f"unix:///{it.node['name']}":
            text = f"the endpoint of {name_text(it.node['name'])} is the one that `kmsrest plan` writes for any: no plugin listens there"
            yield found_at(new, "placeholder-endpoint", (*it.path, "endpoint"), text, "write the plugin's own, and its timeout")


def moved_plugins(base: Document, new: Document) -> Iterator[Finding]:
    """Plugins that listen elsewhere: a stored value names its plugin alone, and what stands there now may have another key."""
    before = {str(it.node["name"]): it.node["endpoint"] for it in elements(base) if it.kind == "kms"}
    for it in elements(new):
        if it.kind == "kms" and before.get(str(it.node["name"]), it.node["endpoint"]) != it.node["endpoint"]:
            text = f"{name_text(it.node['name'])} has another endpoint: if another plugin listens there, what is stored by the old one can't be read"
            do = "make sure that it has the same keys, or give the new plugin another name"
            yield found_at(new, "other-endpoint", (*it.path, "endpoint"), text, do)


def readable(new: Document) -> Iterator[Finding]:
    if new.is_readable and next(keys(new), None):
        text = "others on this machine may read the file, and it holds keys"
        yield Finding(BY_CODE["readable-file"], new.name, 0, text, "chmod 600; umask 077 comes before it is made")


def findings(base: Document, new: Document, today: datetime.date) -> Iterator[Finding]:
    yield from written_in_the_clear(base, new)
    yield from weak_secrets(new)
    yield from shared_secrets(base, new)
    yield from counted_writes(new, today)
    yield from placeholders(new)
    yield from moved_plugins(base, new)
    yield from readable(new)
