"""The text of a plan's files: configurations in YAML, as kmsrest and the API server read them, and what the given files say of their
plugins."""

import base64
import json
import re
from dataclasses import dataclass
from pathlib import Path

import plain_files
import trees
from reference import configuration, masking, rollout

HEAD = f"apiVersion: {configuration.API_VERSION}\nkind: {configuration.KIND}\nresources:\n"
# A text that YAML takes for nothing else wherever it is read.
PLAIN = re.compile(r"[a-z][a-z0-9]*[./-][a-z0-9./-]*[a-z0-9]|[a-z]{4,}s|key[0-9]+")
NUMBER = re.compile(r"-?[0-9]+")


class Refused(Exception):
    """Why no file is written, and the status of that."""

    def __init__(self, text, status=3):
        super().__init__(text)
        self.text, self.status = text, status


@dataclass(frozen=True)
class Plugin:
    """What a given file says of a plugin, where, and how its name is shown."""

    name: str
    members: dict
    place: str

    @property
    def shown(self):
        return masking.name(self.name)


@dataclass(frozen=True)
class Given:
    """A configuration that was given, by its plugins."""

    plugins: list

    @classmethod
    def read(cls, name):
        try:
            tree, lines = trees.placed(plain_files.content(name))
        except (OSError, ValueError) as no:
            raise Refused(f"{name} can't be read a second time: is it a pipe?") from no
        found = []
        for path, line in lines.items():
            if len(path) == 6 and path[4:] == ("kms", "name"):
                members = at(tree, path[:5])
                found.append(Plugin(members["name"], members, f"line {line} of {name}"))
        return cls(found)


def at(tree, path):
    for part in path:
        tree = tree[part]
    return tree


# ---- entries


def repeated(entries):
    """Whether a plugin stands in two entries, which the API server refuses."""
    names = [name for _patterns, providers in entries for name in {provider[1] for provider in providers if provider[0] == "kms"}]
    return len(names) != len(set(names))


def same(one, other, classes):
    return all(rollout.list_at(one, found) == rollout.list_at(other, found) for found in classes)


def joined(entries):
    """The entries, with those joined that have the same providers, where a plugin would stand in two of them."""
    classes, now = rollout.classes_of(entries), entries
    while repeated(now):
        smaller = next((it for it in (*without_one(now), *with_two_joined(now)) if same(it, entries, classes)), None)
        if smaller is None:
            raise Refused("a KMS plugin would stand in two entries with other providers beside it, which the API server refuses: part the plan into two, or write the files by hand from `plan --show`")
        now = smaller
    return now


def without_one(entries):
    """The entries but for one that says what those behind it say too."""
    return ([*entries[:at], *entries[at + 1 :]] for at in range(len(entries)))


def with_two_joined(entries):
    """The entries with two of the same providers in the place of the one or the other."""
    for second in range(len(entries)):
        for first in range(second):
            patterns, providers = entries[first]
            others, same_providers = entries[second]
            if providers == same_providers and not any(configuration.overlap(one, other) for one in patterns for other in others):
                both = (patterns + others, providers)
                for place in (first, second):
                    kept = [both if at == place else entry for at, entry in enumerate(entries) if at in (place,) or at not in (first, second)]
                    yield kept


# ---- text


def head(step, number, replicas, names):
    """What stands above a file."""
    shown = {name: masking.printable(Path(path).name) for name, path in names.items()}
    servers = "the API server" if replicas == "1" else f"each of the {replicas} API servers, one after another"
    return (
        f"# Step {number} of 3, `{step.word}`: for {servers}; ask `kmsrest judge` before each.\n"
        f"# It writes as {step.writes_as.format(**shown)} does, and reads what {step.reads.format(**shown)} read{'' if ' and ' in step.reads else 's'}.\n"
        f"# {step.behind}\n"
    )


def kept(name):
    """The text of a given file, where comments may stand above it as it is."""
    text = plain_files.content(name).decode()
    return None if text.lstrip(" \t\r\n").startswith(("{", "---")) else text


def scalar(text):
    return text if PLAIN.fullmatch(text) else json.dumps(text, ensure_ascii=False)


def written(entries, plugins):
    """Entries in YAML, with what the plugins have besides."""
    lines = [HEAD]
    for patterns, providers in entries:
        lines.append("  - resources:\n")
        lines += [f"      - {scalar(pattern)}\n" for pattern in patterns]
        lines.append("    providers:\n")
        for provider in providers:
            lines += provider_lines(provider, plugins)
    return "".join(lines)


def provider_lines(provider, plugins):
    kind, name = provider[:2]
    if kind == "identity":
        return ["      - identity: {}\n"]
    if kind == "kms":
        members = {"apiVersion": "v2", "name": name, **plugins[name]}
        return ["      - kms:\n", *(f"          {member}: {value_text(member, value)}\n" for member, value in members.items())]
    secret = base64.b64encode(provider[2]).decode()
    return [f"      - {kind}:\n", "          keys:\n", f"            - name: {scalar(name)}\n", f"              secret: {json.dumps(secret)}\n"]


def value_text(member, value):
    """A member of a plugin. Its cache's size is a number, in whichever form it was read."""
    if member == "cachesize" and NUMBER.fullmatch(str(value)):
        return str(value)
    if not isinstance(value, str):
        raise Refused(f"a plugin's `{member}` is no text")
    return "v2" if member == "apiVersion" else scalar(value)
