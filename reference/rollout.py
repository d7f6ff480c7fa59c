"""The plan of a rollout: the settings between two configurations, and the moves."""

import base64
import json

from . import configuration
from .outside import Stop, load_settings
from .words import number

REST = "*.*"


def classes_of(*all_entries):
    """The classes that the configurations tell apart, as patterns: exact ones by their bytes, groups by their bytes, the rest."""
    patterns = {pattern for entries in all_entries for listed, _ in entries for pattern in listed} - {REST}
    exact = sorted(pattern for pattern in patterns if not pattern.startswith("*."))
    groups = sorted(pattern[2:] for pattern in patterns if pattern.startswith("*."))
    return [*exact, *("*." + group for group in groups), REST]


def speaks_of(pattern, found):
    """Whether a pattern matches all of a class."""
    if found == REST:
        return pattern == REST
    if found.startswith("*."):
        return pattern in (found, REST)
    return configuration.covers(pattern, found)


def list_at(entries, found):
    for patterns, providers in entries:
        if any(speaks_of(pattern, found) for pattern in patterns):
            return providers
    return [("identity", "")]


def first_clash(classes, one, other):
    for found in classes:
        for provider in list_at(one, found):
            if any(rival[:2] == provider[:2] and rival != provider for rival in list_at(other, found)):
                return found, provider
    return None


def merged(classes, one, other):
    rows = []
    for found in classes:
        first, second = list_at(one, found), list_at(other, found)
        rows.append(([found], first + [provider for provider in second if provider not in first]))
    return rows


def passed_limit(entries):
    counts = {1: len(entries), 3: 0, 4: 0}
    for _, providers in entries:
        counts[3] += sum(provider[0] in ("aescbc", "aesgcm") for provider in providers)
        counts[4] += sum(provider[0] == "kms" for provider in providers)
    return next((which for which, count in counts.items() if count > configuration.LIMITS[which][1]), None)


def element(provider):
    kind, name = provider[:2]
    if kind == "identity":
        return {kind: {}}
    if kind == "kms":
        return {kind: {"apiVersion": "v2", "endpoint": f"unix:///{name}", "name": name}}
    return {kind: {"keys": [{"name": name, "secret": base64.b64encode(provider[2]).decode()}]}}


def settings_text(entries):
    """Compact JSON, members by the bytes of their names."""
    resources = [{"providers": [element(provider) for provider in providers], "resources": patterns} for patterns, providers in entries]
    tree = {"apiVersion": configuration.API_VERSION, "kind": configuration.KIND, "resources": resources}
    return json.dumps(tree, separators=(",", ":"), ensure_ascii=False).encode()


def moves(replicas):
    for phase in ("wide", "turned"):
        yield from (f"reload {replica} {phase}" for replica in range(replicas))
    yield "rewrite"
    yield from (f"reload {replica} to" for replica in range(replicas))


def provider_text(provider):
    return ":".join(provider[:2]) if provider[1] else provider[0]


def plan(options, world, output):
    before, after = load_settings(world, options["from"]), load_settings(world, options["to"])
    classes = classes_of(before, after)
    clash = first_clash(classes, before, after)
    if clash is not None:
        raise Stop(1, f"clash {clash[0]} {provider_text(clash[1])}")
    wide, turned = merged(classes, before, after), merged(classes, after, before)
    which = passed_limit(wide)
    if which is not None:
        word, most = configuration.LIMITS[which]
        raise Stop(6, f"limit {word} {most}")
    if "show" in options:
        output.write_all(settings_text({"wide": wide, "turned": turned}[options["show"]]) + b"\n")
    else:
        output.write_all("".join(f"{move}\n" for move in moves(number(options["replicas"]))).encode())
    return b"", 0
