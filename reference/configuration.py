"""What a configuration's bytes mean: its entries, or their first breach."""

import base64
import binascii
import json
import math

from . import yaml_profile
from .words import is_name, is_resource

API_VERSION = "apiserver.config.k8s.io/v1"
KIND = "EncryptionConfiguration"
PROVIDERS = ("identity", "aescbc", "aesgcm", "kms", "secretbox")
YAML_KINDS = ("Outside", "Indent", "DuplicateKey", "Deep")
# (as serde_json: its limit of 128 lets 127 levels stand)
JSON_LEVELS = 127
LIMITS = {1: ("entries", 64), 2: ("patterns", 256), 3: ("keys", 64), 4: ("kms", 16)}
KEY_SIZES = (16, 24, 32)


class Breach(Exception):
    def __init__(self, code, first=0, second=0):
        super().__init__(code, first, second)
        self.code, self.first, self.second = code, first, second


# ---- JSON


def levels(text):
    """How deep arrays and objects of a JSON text stand in one another."""
    deep, most, in_text, at = 0, 0, False, 0
    while at < len(text):
        mark = text[at]
        if in_text:
            at += mark == "\\"
            in_text = mark != '"'
        elif mark == '"':
            in_text = True
        elif mark in "[{":
            deep += 1
            most = max(most, deep)
        elif mark in "]}":
            deep -= 1
        at += 1
    return most


def no_constant(name):
    raise ValueError(name)


def finite(text):
    """serde_json keeps what is above its integers as a float, and refuses what is above all floats."""
    if math.isinf(float(text)):
        raise ValueError(text)
    return 0.0


def texts_of(tree):
    if isinstance(tree, str):
        yield tree
    elif isinstance(tree, list):
        for item in tree:
            yield from texts_of(item)
    elif isinstance(tree, dict):
        for key, value in tree.items():
            yield key
            yield from texts_of(value)


def read_json(data):
    try:
        text = data.decode()
        if levels(text) > JSON_LEVELS:
            raise ValueError("depth")
        tree = json.loads(text, parse_constant=no_constant, parse_float=finite, parse_int=finite)
        for part in texts_of(tree):
            # (half of a surrogate pair is no character)
            part.encode()
        return tree
    except ValueError:
        raise Breach(20) from None


def read_tree(data):
    if data.lstrip(b" \t\r\n")[:1] == b"{":
        return read_json(data)
    try:
        text = data.decode()
    except UnicodeDecodeError:
        raise Breach(21, 0, 5) from None
    try:
        return yaml_profile.read(text)
    except yaml_profile.YamlNo as no:
        raise Breach(21, no.line, YAML_KINDS.index(no.kind) + 1) from None


# ---- the walk


def mapping(tree, *place):
    if not isinstance(tree, dict):
        raise Breach(22, *place)
    return tree


def text_in(tree, name, *place):
    if not isinstance(tree.get(name), str):
        raise Breach(22, *place)
    return tree[name]


def list_in(tree, name, *place):
    items = tree.get(name)
    if not isinstance(items, list):
        raise Breach(22, *place)
    if not items:
        raise Breach(25, *place)
    return items


def secret_of(text, *place):
    try:
        secret = base64.b64decode(text.encode(), validate=True)
    except (binascii.Error, ValueError):
        raise Breach(33, *place) from None
    if base64.b64encode(secret) != text.encode():
        raise Breach(33, *place)
    if len(secret) not in KEY_SIZES:
        raise Breach(34, *place)
    return secret


def group_of(resource):
    return resource.partition(".")[2]


def is_pattern(text):
    data = text.encode()
    if text in ("*.*", "*."):
        return True
    if text.startswith("*."):
        return len(data) <= 253 and is_resource(data[2:])
    return is_resource(data)


def covers(pattern, resource):
    """Whether the pattern matches the resource."""
    if pattern == "*.*":
        return True
    return group_of(resource) == pattern[2:] if pattern.startswith("*.") else resource == pattern


def overlap(one, other):
    if "*.*" in (one, other):
        return True
    first, second = sorted((one, other), key=lambda it: not it.startswith("*."))
    return first.startswith("*.") and not second.startswith("*.") and covers(first, second)


class Walk:
    """The counts of the whole file."""

    def __init__(self):
        self.counts = {2: 0, 3: 0, 4: 0}

    def count(self, which):
        self.counts[which] += 1
        if self.counts[which] > LIMITS[which][1]:
            raise Breach(39, which, LIMITS[which][1])

    def entries(self, tree):
        mapping(tree)
        if tree.get("apiVersion") != API_VERSION:
            raise Breach(23)
        if tree.get("kind") != KIND:
            raise Breach(24)
        items = list_in(tree, "resources")
        if len(items) > LIMITS[1][1]:
            raise Breach(39, 1, LIMITS[1][1])
        return [self.entry(number, item) for number, item in enumerate(items)]

    def entry(self, number, tree):
        mapping(tree, number, 0)
        patterns = []
        for place, pattern in enumerate(list_in(tree, "resources", number, 0)):
            self.pattern(pattern, patterns, number, place)
            patterns.append(pattern)
        providers = []
        for place, element in enumerate(list_in(tree, "providers", number, 0)):
            self.element(element, providers, number, place)
        return patterns, providers

    def pattern(self, pattern, earlier, *place):
        if not isinstance(pattern, str):
            raise Breach(22, *place)
        if not is_pattern(pattern):
            raise Breach(35, *place)
        if pattern in earlier:
            raise Breach(36, *place)
        if any(overlap(pattern, other) for other in earlier):
            raise Breach(37, *place)
        self.count(2)

    def element(self, tree, providers, *place):
        mapping(tree, *place)
        kinds = [kind for kind in PROVIDERS if kind in tree]
        if not kinds:
            raise Breach(26, *place)
        if len(kinds) > 1:
            raise Breach(27, *place)
        kind, value = kinds[0], tree[kinds[0]]
        if kind == "secretbox":
            raise Breach(28, *place)
        if kind == "identity":
            if value is not None:
                mapping(value, *place)
            self.provide(providers, (kind, ""), *place)
        elif kind == "kms":
            self.plugin(mapping(value, *place), providers, *place)
        else:
            for key in list_in(mapping(value, *place), "keys", *place):
                self.key(kind, key, providers, *place)

    def provide(self, providers, provider, *place):
        if any(provider[:2] == other[:2] for other in providers):
            raise Breach(38, *place)
        providers.append(provider)

    def key(self, kind, tree, providers, *place):
        mapping(tree, *place)
        name = text_in(tree, "name", *place)
        if not is_name(name.encode()):
            raise Breach(31, *place)
        secret = secret_of(text_in(tree, "secret", *place), *place)
        self.provide(providers, (kind, name, secret), *place)
        self.count(3)

    def plugin(self, tree, providers, *place):
        if "apiVersion" not in tree or tree["apiVersion"] == "v1":
            raise Breach(29, *place)
        if text_in(tree, "apiVersion", *place) != "v2":
            raise Breach(30, *place)
        name = text_in(tree, "name", *place)
        if not is_name(name.encode()):
            raise Breach(31, *place)
        if not text_in(tree, "endpoint", *place).startswith("unix://"):
            raise Breach(32, *place)
        self.provide(providers, ("kms", name), *place)
        self.count(4)


def read(data):
    """The entries: pairs of patterns and providers. A provider is its kind, its name, and its secret if it has one."""
    return Walk().entries(read_tree(data))


def list_for(entries, resource):
    """The providers of the first entry that has a matching pattern, else identity alone."""
    for patterns, providers in entries:
        if any(covers(pattern, resource) for pattern in patterns):
            return providers
    return [("identity", "")]
