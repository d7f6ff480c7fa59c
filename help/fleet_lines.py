"""Why a line of a fleet file can't stand where it stands."""

import base64
import binascii

import plain_files
from reference import masking
from reference import words as grammar

PARTS = {
    "replica": "replica NAME FILE",
    "worker": "worker NAME REPLICA",
    "put": "put RESOURCE PATH B64",
    "get": "get PATH",
    "delete": "delete PATH",
    "rewrite": "rewrite",
    "refresh": "refresh",
    "reload": "reload REPLICA FILE",
    "join": "join REPLICA FILE",
    "leave": "leave REPLICA",
}


class Before:
    """What the lines above a line have named."""

    def __init__(self):
        self.replicas, self.workers, self.has_head = [], [], False


def words_of(line):
    return [word for word in line.split(" ") if word]


def fault_of(before, words):
    if not before.has_head:
        return None if words == ["fleet", "1"] else "the first line is `fleet 1`"
    if words[0] not in PARTS:
        return f"{masking.scalar(words[0])} is no line's first word"
    if len(words) != len(PARTS[words[0]].split(" ")):
        return f"it is written `{PARTS[words[0]]}`, each part without spaces"
    return named_fault(before, words) or data_fault(words)


def named_fault(before, words):
    if words[0] == "replica":
        if before.workers:
            return "replicas stand before the first worker"
        if words[1] in before.replicas:
            return f"there is a replica {masking.shown(words[1])} already"
        if words[2] == "-" and not before.replicas:
            return "the first replica has a file, not `-`"
    elif words[0] == "worker":
        if words[1] in before.workers:
            return f"there is a worker {masking.shown(words[1])} already"
        if words[2] not in before.replicas:
            return f"there is no replica {masking.shown(words[2])}"
    elif not before.workers:
        return "a worker's line stands before the first worker"
    elif words[0] in ("reload", "join", "leave") and words[1] not in before.replicas:
        return f"there is no replica {masking.shown(words[1])}"
    if words[0] in ("replica", "worker") and not grammar.is_name(words[1].encode()):
        return f"{masking.scalar(words[1])} is no name: 1 to 253 bytes from ! to ~, none of them a colon"
    return None


def data_fault(words):
    if words[0] == "put" and not grammar.is_resource(words[1].encode()):
        return f"{masking.scalar(words[1])} is no resource"
    if words[0] in ("put", "get", "delete") and not grammar.is_path(words[2 if words[0] == "put" else 1].encode()):
        return "its path has a byte beyond ! to ~, or more than 1,024"
    if words[0] == "put" and words[3] != "-":
        try:
            if base64.b64encode(base64.b64decode(words[3], validate=True)).decode() != words[3]:
                raise ValueError
        except (ValueError, binascii.Error):
            return "its data aren't standard base64 (`-` stands for none)"
    return None


def fleet_fault(name, number):
    """The line, as far as it may be shown, and why it can't stand there; or None where that isn't seen."""
    try:
        lines = plain_files.content(name).split(b"\n")
    except OSError:
        return None
    before = Before()
    for at, raw in enumerate(lines[:number], 1):
        try:
            line = (raw[:-1] if raw.endswith(b"\r") and at < len(lines) else raw).decode()
        except UnicodeDecodeError:
            return "bytes", "it isn't UTF-8"
        words = words_of(line)
        if not words or words[0].startswith("#"):
            continue
        fault = fault_of(before, words)
        if fault:
            return masking.fleet_line(line), fault if at == number else f"line {at} is the first one: {fault}"
        before.has_head = True
        if words[0] == "replica":
            before.replicas.append(words[1])
        elif words[0] == "worker":
            before.workers.append(words[1])
    if number > len(lines) or not lines[number - 1]:
        return "the end", "a replica or a worker is missing"
    return None
