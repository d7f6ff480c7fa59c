"""The words of a command line."""

import re

OPTIONS = {
    # command: required options, further ones
    "encrypt": (("config", "resource", "path"), ("plugin",)),
    "decrypt": (("config", "resource", "path"), ("plugin",)),
    "check": (("config",), ("resource",)),
    "inspect": ((), ()),
    "put": (("config", "store", "resource", "path"), ("plugin",)),
    "get": (("config", "store", "path"), ("plugin",)),
    "list": (("store",), ()),
    "migrate": (("config", "store", "to"), ()),
    "judge": (("store", "replica", "reload"), ()),
    "plan": (("from", "to", "replicas"), ("show",)),
    "rewrite": (("config", "store"), ("plugin",)),
    "fleet": (("file", "store"), ("plugin",)),
    "gen": (("seed", "size", "store"), ()),
    "watch": (("file", "store", "resource", "limit"), ("plugin", "since")),
    "verify": (("config", "store"), ("plugin",)),
}
REPEATED = ("plugin", "replica")
MOST_REPLICAS = 16
MOST_SIZE = 10_000
MOST_PAGE = 10_000
MOST_NUMBER = 2**64 - 1


class Usage(Exception):
    """The words mean no command."""


class WordsLimit(Exception):
    """The words pass a limit."""


def is_graphic(data):
    return all(0x21 <= byte <= 0x7E for byte in data)


def is_name(data):
    return 1 <= len(data) <= 253 and is_graphic(data) and b":" not in data


def is_path(data):
    return 1 <= len(data) <= 1024 and is_graphic(data)


def is_resource(data):
    return len(data) <= 253 and re.fullmatch(rb"[a-z0-9-]+(\.[a-z0-9-]+)*", data) is not None


def number(text):
    """A number of decimal digits without a sign and without a leading zero."""
    if not re.fullmatch(r"0|[1-9][0-9]*", text, re.A):
        raise Usage
    return int(text)


def parted(words, known):
    """The options of the words, a list of values each."""
    found = {}
    rest = list(words)
    while rest:
        word = rest.pop(0)
        if not word.startswith("--"):
            raise Usage
        name, equals, value = word[2:].partition("=")
        if name not in known:
            raise Usage
        if not equals:
            if not rest:
                raise Usage
            value = rest.pop(0)
        if name in found and name not in REPEATED:
            raise Usage
        found.setdefault(name, []).append(value)
    return found


def keep_plugin_rule(values):
    names = []
    for value in values:
        name, equals, program = value.partition("=")
        if not equals or not is_name(name.encode()) or not program or name in names:
            raise Usage
        names.append(name)


def keep_reload_rule(value, replicas):
    digits, equals, _file = value.partition("=")
    if not equals or number(digits) >= replicas:
        raise Usage


def keep_rules(command, found):
    if "resource" in found and not is_resource(found["resource"][0].encode()):
        raise Usage
    if "path" in found:
        path = found["path"][0].encode()
        may_be_empty = command in ("encrypt", "decrypt")
        if not is_path(path) and not (may_be_empty and path == b""):
            raise Usage
    keep_plugin_rule(found.get("plugin", ()))
    if command == "migrate" and found["store"] == found["to"]:
        raise Usage
    if command == "judge":
        keep_reload_rule(found["reload"][0], len(found["replica"]))
    if command == "plan":
        if number(found["replicas"][0]) < 1 or found.get("show", ["wide"])[0] not in ("wide", "turned"):
            raise Usage
    if command == "gen":
        if number(found["seed"][0]) > MOST_NUMBER or number(found["size"][0]) < 1:
            raise Usage
    if command == "watch":
        if number(found["limit"][0]) < 1 or number(found.get("since", ["0"])[0]) > MOST_NUMBER:
            raise Usage


def command_of(words):
    """The command that the words mean, with its options."""
    if not words or words[0] not in OPTIONS:
        raise Usage
    command = words[0]
    required, further = OPTIONS[command]
    found = parted(words[1:], required + further)
    if any(name not in found for name in required):
        raise Usage
    keep_rules(command, found)
    if command == "judge" and len(found["replica"]) > MOST_REPLICAS:
        raise WordsLimit(f"replicas {MOST_REPLICAS}")
    if command == "plan" and number(found["replicas"][0]) > MOST_REPLICAS:
        raise WordsLimit(f"replicas {MOST_REPLICAS}")
    if command == "gen" and number(found["size"][0]) > MOST_SIZE:
        raise WordsLimit(f"size {MOST_SIZE}")
    if command == "watch" and number(found["limit"][0]) > MOST_PAGE:
        raise WordsLimit(f"page {MOST_PAGE}")
    return command, {name: values if name in REPEATED else values[0] for name, values in found.items()}
