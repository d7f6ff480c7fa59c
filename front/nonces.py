"""What is said of a rewrite that sealed very many values by one key of aesgcm: its nonces are random, so one key is for so many."""

import collections
import os

import looks
from call_words import entries_of
from reference.nonces import MOST_SEALED
from reference.values import split

# The least bytes of a row with a value of aesgcm: as long as a store grew by less than that many, nothing is counted.
LEAST_ROW = 70

# How long the store was before the call.
_lengths = {}


def before(call):
    _lengths.clear()
    if call.command == "rewrite":
        _lengths.update({name: length_of(name) for name in call.options.get("store", ())})
    return []


def length_of(name):
    try:
        return os.stat(name).st_size
    except OSError:
        return 0


def after(call, _status, _errors):
    for name, length in _lengths.items():
        if length_of(name) - length > MOST_SEALED * LEAST_ROW:
            return lines_of(sealed_since(name, length), call)
    return []


def sealed_since(name, length):
    """How many values of each key of aesgcm stand behind a length of the store's file."""
    counts, old = collections.Counter(), looks.rows_before(name, length) or 0
    for row in (looks.rows_of(name) or [])[old:]:
        found = split(row.value) if row.value else None
        if found and found[0] == "aesgcm":
            counts[found[1].decode()] += 1
    return counts


def lines_of(counts, call):
    """A line of each key that sealed more. Two names of one secret are one key."""
    names_of = collections.defaultdict(list)
    for name in sorted(counts):
        names_of[secret_of(name, call) or name].append(name)
    found = [(names, sum(counts[name] for name in names)) for names in names_of.values()]
    return [
        f"remark: this rewrite sealed {number} values by aesgcm:{' and '.join(names)}: one key is for {MOST_SEALED} writes, those of the API servers counted too; exchange it"
        for names, number in found
        if number > MOST_SEALED
    ]


def secret_of(name, call):
    """The secret of a key of aesgcm by the call's configuration, which is shown nowhere."""
    for config in call.options.get("config", ()):
        for _resources, providers in entries_of(config) or ():
            for provider in providers:
                if provider[0] == "aesgcm" and provider[1] == name:
                    return provider[2]
    return None
