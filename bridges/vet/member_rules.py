"""Rules of the API server for members, plugins and scalars."""

import difflib
import json
import re
from collections.abc import Iterator
from typing import Any

from reference import configuration, masking, yaml_profile

from . import scalars
from .document import CIPHERS, Document, Element, Path, elements, name_text
from .rules import Fault, a_rule

MEMBERS = {
    "whole": ("apiVersion", "kind", "resources"),
    "entry": ("resources", "providers"),
    "element": configuration.PROVIDERS,
    "identity": (),
    "aescbc": ("keys",),
    "aesgcm": ("keys",),
    "key": ("name", "secret"),
    "kms": ("apiVersion", "name", "cachesize", "endpoint", "timeout"),
}


# ---- members


def mappings(document: Document) -> Iterator[tuple[str, Path, Any]]:
    """Each mapping whose members are known, by its kind and its path."""
    yield "whole", (), document.tree
    for number, entry in enumerate(document.tree["resources"]):
        yield "entry", ("resources", number), entry
    for it in elements(document):
        yield "element", it.path[:-1], document.tree["resources"][it.entry]["providers"][it.place]
        if isinstance(it.node, dict):
            yield it.kind, it.path, it.node
        if it.kind in CIPHERS:
            for number, key in enumerate(it.node["keys"]):
                yield "key", (*it.path, "keys", number), key


@a_rule
def unknown_members(document: Document) -> Iterator[Fault]:
    for kind, path, node in mappings(document):
        for name in node.keys() - set(MEMBERS[kind]):
            near = next(iter(difflib.get_close_matches(name, MEMBERS[kind], 1, 0.6)), None)
            do = f"write {near}" if near else "take it out, or mend its indentation"
            shown = masking.scalar(name)
            yield Fault("unknown-member", (*path, name), f"no member is called {shown} here: strict decoding refuses the file", do)
            yield Fault("ignored-member", (*path, name), f"no member is called {shown} here: it says nothing", do)


class Doubled(Exception):
    """A member stands twice."""


def told_once(pairs: list[tuple[str, Any]]) -> dict[str, Any]:
    names = [name for name, _ in pairs]
    for name in names:
        if names.count(name) > 1:
            raise Doubled(name)
    return dict(pairs)


@a_rule
def doubled_members(document: Document) -> Iterator[Fault]:
    """(in YAML `check` refuses it too)"""
    text = document.data.decode()
    if text.lstrip(" \t\r\n")[:1] != "{":
        return
    try:
        json.loads(text, object_pairs_hook=told_once)
    except Doubled as no:
        shown = masking.scalar(no.args[0])
        told = f"a member {shown} stands twice in one object: strict decoding refuses the file"
        yield Fault("member-twice", (), told, "delete one of the two")


# ---- plugins


def plugins(document: Document) -> Iterator[Element]:
    return (it for it in elements(document) if it.kind == "kms")


@a_rule
def caches(document: Document) -> Iterator[Fault]:
    for it in plugins(document):
        size = scalars.value_of(it.node.get("cachesize"))
        if size is None:
            continue
        path = (*it.path, "cachesize")
        yield Fault("cachesize-of-v2", path, "a plugin of v2 has no cachesize", "delete the line")
        if not scalars.is_count(size):
            yield Fault("cachesize", path, "the cachesize is no whole number other than 0", "write a number, or delete the line")


@a_rule
def timeouts(document: Document) -> Iterator[Fault]:
    for it in plugins(document):
        if not scalars.is_duration(scalars.value_of(it.node.get("timeout"))):
            do = "write one such as 3s, in letters for its unit"
            yield Fault("timeout", (*it.path, "timeout"), "the timeout is no duration above zero", do)


@a_rule
def endpoints(document: Document) -> Iterator[Fault]:
    for it in plugins(document):
        path, endpoint = (*it.path, "endpoint"), it.node["endpoint"]
        bare = endpoint.rstrip("\t") if scalars.is_plain(endpoint) else endpoint
        if bare != endpoint:
            told = "a tab stands behind the endpoint: a byte of it here, and dropped by the API server"
            yield Fault("endpoint-tab", path, told, "delete it")
        fault = scalars.endpoint_fault(bare)
        if fault:
            yield Fault("endpoint-url", path, f"the endpoint is no URL: it has {fault}", "write unix:///PATH")
        elif scalars.host_of(bare):
            told = "two slashes, and no third: the API server drops what stands in front of the next slash"
            yield Fault("endpoint-host", path, told, "write unix:///PATH")


@a_rule
def plugin_versions(document: Document) -> Iterator[Fault]:
    for it in plugins(document):
        path = (*it.path, "apiVersion")
        told = "the member is ignored before 1.25: the plugin is asked as one of v1"
        yield Fault("kms-as-v1", path, told, "a plugin of v1 isn't judged here: --kubernetes 1.27 or later")
        told = "v2 of KMS is refused there without the feature gate KMSv2"
        yield Fault("kms-alpha", path, told, "turn the gate on at each API server, or upgrade to 1.27 first")


@a_rule
def plugins_twice(document: Document) -> Iterator[Fault]:
    seen: dict[str, int] = {}
    for it in plugins(document):
        name = str(it.node["name"])
        if name in seen:
            line = document.line("resources", seen[name], "providers")
            do = "join the entries: one entry can name several resources; or give one plugin another name"
            yield Fault("plugin-twice", (*it.path, "name"), f"the plugin {name_text(name)} stands already in the entry of line {line}", do)
        seen.setdefault(name, it.entry)


# ---- scalars


def texts(document: Document) -> Iterator[tuple[Path, Any]]:
    """Each part that must be a text, but for the ones that can have one value alone."""
    for number, entry in enumerate(document.tree["resources"]):
        yield from ((("resources", number, "resources", place), node) for place, node in enumerate(entry["resources"]))
    for it in elements(document):
        if it.kind == "kms":
            yield from (((*it.path, name), it.node[name]) for name in ("name", "endpoint"))
        elif it.kind in CIPHERS:
            for number, key in enumerate(it.node["keys"]):
                yield from (((*it.path, "keys", number, name), key[name]) for name in ("name", "secret"))


@a_rule
def no_texts(document: Document) -> Iterator[Fault]:
    for path, node in texts(document):
        value = scalars.value_of(node)
        if scalars.is_plain(node) and value == "-":
            told = "a - alone: the API server's YAML takes it for an item, and refuses the file"
            yield Fault("lone-dash", path, told, "put it in quotes")
        elif value is None:
            yield Fault("nothing", path, "the API server reads it as nothing", "put it in quotes, or write what is meant")
        elif not isinstance(value, str):
            what = "truth value" if isinstance(value, bool) else "number"
            yield Fault("no-text", path, f"the API server reads it as a {what}, and wants a text", "put it in quotes")


@a_rule
def empty_identities(document: Document) -> Iterator[Fault]:
    for it in elements(document):
        if it.kind == "identity" and it.node is None:
            told = "identity without a value is nothing to the API server, so the item has no provider"
            yield Fault("nothing", it.path, told, "write `identity: {}`")


def all_scalars(tree: Any, path: Path = ()) -> Iterator[tuple[Path, Any]]:
    """Each scalar of a tree, keys too."""
    if isinstance(tree, dict):
        for name, node in tree.items():
            yield (*path, name), name
            yield from all_scalars(node, (*path, name))
    elif isinstance(tree, list):
        for place, node in enumerate(tree):
            yield from all_scalars(node, (*path, place))
    else:
        yield path, tree


@a_rule
def tabs_behind_colons(document: Document) -> Iterator[Fault]:
    for path, node in all_scalars(document.tree):
        if scalars.is_plain(node) and ":\t" in node:
            told = "a colon with a tab behind it: the API server's YAML refuses the line"
            yield Fault("colon-tab", path, told, "put a space behind the colon")


@a_rule
def escaped_slashes(document: Document) -> Iterator[Fault]:
    for path, node in all_scalars(document.tree):
        written = node.written if isinstance(node, yaml_profile.Scalar) else ""
        if written.startswith('"') and re.search(r"^(?:[^\\]|\\[^/])*\\/", written):
            told = "the API server's YAML knows no escape \\/ in quotes, and refuses the file"
            yield Fault("escaped-slash", path, told, "write / alone")
