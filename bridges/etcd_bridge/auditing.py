"""etcd-audit: how many values an etcd has, by resource, by who sealed them, and of a plugin's by its key id. No keys are
needed. With --still it tells whether there is any value of an old key: whether that may go."""

import argparse
import collections
import difflib
import json
from collections.abc import Iterator
from dataclasses import dataclass

from reference.store import tag
from reference.values import Refused as ValueRefused
from reference.values import read_object, split

from .common_words import add_reading, add_sources, places_of
from .errors import visible
from .keys import KeyValue
from .opening import entries_of, provider_name
from .output import tell
from .places import Places
from .programs import run_program, say
from .sources import Source, judge_prefix, source_of
from .worn_keys import worn

METRIC = "kmsrest_stored_values"
HELP = "Values stored in etcd, by resource, by the provider that sealed them, and of plugins by key id."


def parsed(arguments: list[str]) -> tuple[argparse.Namespace, Places]:
    parser = argparse.ArgumentParser(
        prog="etcd-audit",
        allow_abbrev=False,
        description=__doc__,
        epilog="Endpoints and certificates come from etcdctl's environment. Status: 0 done; 1 there is a value of --still, or the "
        "source is refused; 2 wrong words; 3 etcd doesn't answer.",
    )
    add_reading(parser)
    add_sources(parser)
    parser.add_argument(
        "--still",
        action="append",
        default=[],
        metavar="PROVIDER[@KEY_ID]",
        help="end with 1 while there is a value of it: aescbc:key1, kms:p, kms:p@k1, plain; may be repeated; needs --config",
    )
    parser.add_argument(
        "--config",
        action="append",
        default=[],
        metavar="C",
        help="a configuration that the API servers have, which names each provider of --still; may be repeated",
    )
    parser.add_argument("--output", choices=("text", "json", "prometheus"), default="text", help="how to print (text)")
    words = parser.parse_args(arguments)
    words.still = ["plain" if it == "identity" else it for it in words.still]
    for still in words.still:
        if still != "plain" and still != "strange" and not still.startswith(("aescbc:", "aesgcm:", "kms:")):
            parser.error(f"--still {still}: not plain, strange, aescbc:NAME, aesgcm:NAME or kms:NAME[@KEY_ID]")
    judge_asked(parser, words)
    return words, places_of(parser, words)


def judge_asked(parser: argparse.ArgumentParser, words: argparse.Namespace) -> None:
    """A provider that no configuration names is a slip, and of that nothing is stored ever: it would pass for one that may go."""
    keyed = [still for still in words.still if ":" in still]
    if keyed and not words.config:
        parser.error(f"--still {keyed[0]} wants --config C, the configuration that the API servers have: a slip in the name would pass as `may go`")
    named = {provider_name(one) for name in words.config for one in providers_of(name)}
    for still in keyed:
        if still not in named and "@" in still and not still.startswith("kms:"):
            parser.error(f"--still {still}: values of a plugin alone have a key id")
        if still.partition("@")[0] not in named and still not in named:
            near = difflib.get_close_matches(still.partition("@")[0], sorted(named), 1, 0.6)
            parser.error(f"--still {still}: no --config names it" + (f"; one names {near[0]}" if near else ""))


def providers_of(name: str) -> Iterator[tuple]:
    """The providers of a configuration, of all its entries."""
    for _patterns, providers in entries_of(name):
        yield from providers


@dataclass(frozen=True, order=True)
class Kind:
    """A resource (`?` and the place where that is unknown), a provider as `kmsrest list` names it, and a plugin's key id."""

    resource: str
    provider: str
    key_id: str

    @classmethod
    def of(cls, places: Places, found: KeyValue) -> "Kind":
        resource = places.resource_of(found.key) or "?" + visible(places.place_of(found.key))
        return cls(resource, tag(found.value).decode(), key_id_of(found.value))

    def is_asked(self, still: str) -> bool:
        return still in (self.provider, f"{self.provider}@{self.key_id}")


Counts = dict[Kind, int]


def key_id_of(value: bytes) -> str:
    """The key id of a plugin's value; `?` where it is no encrypted object, nothing where it is no plugin's."""
    parts = split(value)
    if parts is None or parts[0] != "kms":
        return ""
    try:
        return read_object(parts[2])[2].decode()
    except ValueRefused:
        return "?"


def counted(source: Source, places: Places, words: argparse.Namespace) -> Counts:
    counts: collections.Counter[Kind] = collections.Counter()
    for span in places.ranges(words.only):
        for page in source.pages(span, words.page):
            counts.update(Kind.of(places, found) for found in page)
    if words.only:
        return {kind: number for kind, number in sorted(counts.items()) if kind.resource in words.only}
    return dict(sorted(counts.items()))


def as_text(counts: Counts, _revision: int) -> Iterator[str]:
    for kind, number in counts.items():
        key_id = " " + visible(kind.key_id.encode()) if kind.key_id else ""
        yield f"{number} {kind.resource} {kind.provider}{key_id}"


def as_json(counts: Counts, revision: int) -> Iterator[str]:
    values = [
        {"resource": kind.resource, "provider": kind.provider, "key_id": kind.key_id or None, "count": number}
        for kind, number in counts.items()
    ]
    yield json.dumps({"revision": revision, "values": values}, separators=(",", ":"))


def as_prometheus(counts: Counts, _revision: int) -> Iterator[str]:
    yield f"# HELP {METRIC} {HELP}"
    yield f"# TYPE {METRIC} gauge"
    for kind, number in counts.items():
        labels = {"resource": kind.resource, "provider": kind.provider, "key_id": kind.key_id}
        inside = ",".join(f'{name}="{label(text)}"' for name, text in labels.items())
        yield f"{METRIC}{{{inside}}} {number}"


def label(text: str) -> str:
    return text.replace("\\", "\\\\").replace('"', '\\"').replace("\n", "\\n")


OUTPUTS = {"text": as_text, "json": as_json, "prometheus": as_prometheus}


def judged(counts: Counts, asked: list[str], only: list[str]) -> bool:
    """Whether nothing that is asked for is there; what is, is told on standard error; so is that --only
    left resources out of the question."""
    is_free = True
    for still in asked:
        number = sum(number for kind, number in counts.items() if kind.is_asked(still))
        if number:
            is_free = False
            say(f"etcd-audit: still {still}: {number}")
        elif only:
            say(f"etcd-audit: remark: {still} was looked for among {', '.join(only)} alone, as --only says: other resources may need it")
    return is_free


def work(arguments: list[str]) -> int:
    words, places = parsed(arguments)
    with source_of(words) as source:
        counts = counted(source, places, words)
        if not counts:
            judge_prefix(source, words.prefix)
        tell(OUTPUTS[words.output](counts, source.revision))
    for line in worn(counts):
        say(f"etcd-audit: {line}")
    return 0 if judged(counts, words.still, words.only) else 1


def main(arguments: list[str]) -> int:
    return run_program("etcd-audit", lambda: work(arguments), no_answer=3, writes=False)
