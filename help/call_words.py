"""The words of a call that wrote a line: which files they name, and why they mean no command."""

import difflib
import os
import re

import plain_files
from commands import COMMANDS, OPTIONS, REPEATED
from reference import configuration, masking, words as grammar

BY_NAME = {command.name: command for command in COMMANDS}
SHOWN = ("wide", "turned")
# The commands that only read the store of --store.
READ_STORE = ("list", "get", "verify", "judge", "migrate")


class Call:
    """The command and the options of some words, as far as they can be made out."""

    def __init__(self, words):
        words = list(words)
        while words and (words[0].endswith("kmsrest") or words[0] in ("$", "sudo")):
            words = words[1:]
        # (a bridge is called by its file's name)
        self.words, self.command, self.options = words, words[0].rsplit("/", 1)[-1] if words else "", {}
        rest = words[1:]
        while rest:
            word = rest.pop(0)
            if word.startswith("--"):
                name, equals, value = word[2:].partition("=")
                self.options.setdefault(name, []).append(value if equals else rest.pop(0) if rest else "")

    def one(self, name):
        return self.options.get(name, [None])[0]

    def configurations(self):
        """The names of the configurations with what each is to the call."""
        found = [(name, "--config") for name in self.options.get("config", ())]
        if self.command == "store-to-etcd":
            found += [(name, "--verify") for name in self.options.get("verify", ())]
        if self.command == "plan":
            found += [(name, f"--{option}") for option in ("from", "to") for name in self.options.get(option, ())]
        found += [(name, f"--replica, API server {number}") for number, name in enumerate(self.options.get("replica", ()))]
        for value in self.options.get("reload", ()):
            number, _, name = value.partition("=")
            found.append((name, f"--reload of API server {number}"))
        for name in self.options.get("file", ()):
            found += fleet_configurations(name)
        return [(name, what) for name, what in found if name]

    def files(self):
        """All files that the call opens, with what each is to it."""
        found = self.configurations()
        options = ("file", "store") if self.command == "plan" else ("file", "store", "to")
        found += [(name, f"--{option}") for option in options for name in self.options.get(option, ())]
        return found

    def writes(self, what):
        """Whether the call writes the store of --store or --to."""
        return what == "--to" or self.command not in READ_STORE

    def plugins(self):
        return [tuple(value.partition("=")[::2]) for value in self.options.get("plugin", ())]


def fleet_configurations(name):
    """What a fleet file names, each once."""
    found = {}
    for number, line in enumerate(plain_files.text_of(name).split("\n"), 1):
        parts = line.split()
        if len(parts) == 3 and parts[0] in ("replica", "reload", "join") and (parts[2] != "-" or parts[0] != "replica"):
            found.setdefault(parts[2], f"line {number} of {name}")
    return list(found.items())


def near(word, known):
    found = difflib.get_close_matches(word, known, 1, 0.6)
    return f"; did you mean {found[0]}?" if found else ""


def usage_faults(call):
    """Why the words mean no command, as pairs of what was found and what to do."""
    if not call.words:
        return [("there are no words", "kmsrest help lists the commands")]
    if call.command not in BY_NAME:
        return [(f"`{call.command}` is no command{near(call.command, BY_NAME)}", "kmsrest help lists the commands")]
    command, faults, rest, seen = BY_NAME[call.command], [], call.words[1:], set()
    own = command.required + command.further
    while rest:
        word = rest.pop(0)
        name, equals, value = word[2:].partition("=")
        if not word.startswith("--"):
            return [stray_fault(word, [option for option in own if option not in seen or option in REPEATED])]
        if name not in own:
            why = f"{call.command} has no option --{name}" if name in OPTIONS else f"there is no option --{masking.bare(name)}"
            return [(why + near(name, own), f"kmsrest help {call.command} lists its options")]
        if not equals and not rest:
            return [(f"--{name} has no value", f"write --{name} {OPTIONS[name][0]}")]
        if not equals:
            value = rest.pop(0)
        if name in seen and name not in REPEATED:
            return [(f"--{name} stands twice", "delete one of the two")]
        seen.add(name)
        faults += value_faults(call, name, value)
    missing = [name for name in command.required if name not in seen]
    if missing:
        faults.insert(0, (f"{call.command} wants --{missing[0]} {OPTIONS[missing[0]][0]}", f"kmsrest help {call.command} shows its words"))
    return faults


def stray_fault(word, free):
    """Why a word is none that stands alone: an option without its dashes, a file without its option, or a slip."""
    option = next(iter(difflib.get_close_matches(word.lstrip("-"), free, 1, 0.6)), None)
    if option:
        return f"`{word}` is no option and no option's value; did you mean --{option}?", "put -- before an option's name"
    for_file = next((option for option in free if OPTIONS[option][0] == "FILE"), None)
    if for_file and os.path.isfile(word):
        return f"`{word}` is a file, and no option stands before it", f"write --{for_file} {word}"
    # (it may be anything that was pasted)
    return f"{masking.scalar(word)} is no option and no option's value", "put -- before an option's name, and quotes around a value with spaces"


def value_faults(call, name, value):
    """What is wrong with an option's value."""
    if name == "resource" and not grammar.is_resource(value.encode()):
        meant = "" if "/" in value else near(value.lower(), masking.RESOURCES)
        return [(f"--resource {masking.name(value)} is no resource{meant}", "small letters, digits, - and dots: secrets, deployments.apps")]
    if name == "path" and not grammar.is_path(value.encode()) and not (value == "" and call.command in ("encrypt", "decrypt")):
        return [(f"--path {masking.name(value)} is no path", "1 to 1,024 bytes without spaces and beyond no ASCII, such as /registry/secrets/default/db")]
    if name == "plugin":
        own, equals, program = value.partition("=")
        if not equals or not program:
            return [(f"--plugin {masking.name(value)} names no program", "write --plugin NAME=PROGRAM; kms-bridge --into writes a program for each plugin of a configuration")]
        if not grammar.is_name(own.encode()):
            return [(f"--plugin: {masking.name(own)} is no name", "1 to 253 bytes from ! to ~, none of them a colon")]
        if [name for name, _ in call.plugins()].count(own) > 1:
            return [(f"--plugin gives `{own}` two programs", "delete one of the two")]
    if name == "reload":
        digits, equals, _ = value.partition("=")
        most = len(call.options.get("replica", ())) - 1
        if not equals:
            return [(f"--reload `{value}` has no file", "write --reload N=FILE")]
        if not re.fullmatch(r"0|[1-9][0-9]*", digits) or int(digits) > most:
            return [(f"--reload `{digits}` is no API server of this call", f"they are numbered by --replica, from 0 to {most}")]
    if name == "show" and value not in SHOWN:
        return [(f"--show `{value}` is none of {' and '.join(SHOWN)}{near(value, SHOWN)}", "wide: the file that reads old and new; turned: the one that writes as the new one; without --show the moves")]
    if name in ("seed", "size", "limit", "since", "replicas") and not re.fullmatch(r"0|[1-9][0-9]*", value):
        return [(f"--{name} `{value}` is no number", "decimal digits, without a sign or a leading zero")]
    if name == "replicas" and value == "0":
        return [("--replicas 0 is no rollout", "how many API servers there are, 1 to 16")]
    if name == "size" and value == "0":
        return [("--size 0 is no load", "at least 1")]
    if name == "limit" and value == "0":
        return [("--limit 0 is no page", "at least 1")]
    if name in ("seed", "since") and int(value) > grammar.MOST_NUMBER:
        return [(f"--{name} `{value}` is too large", f"at most {grammar.MOST_NUMBER}")]
    if name == "to" and value == call.one("store"):
        return [("--to is the store itself", "name another file")]
    return []


def entries_of(name):
    """The entries of a configuration that keeps the rules, or None."""
    try:
        return configuration.read(plain_files.content(name))
    except (OSError, configuration.Breach):
        return None


def provider_text(provider):
    return ":".join(provider[:2]) if provider[1] else provider[0]
