"""`plan --files FOLDER`: the three configurations of a plan as files that API servers can be given. What a plan leaves out of a KMS
plugin (its endpoint, timeout and cachesize) is put back from the two configurations that were given, and each file says on top which
step it is. Nothing is written over, and either all files are made or none."""

import os
import subprocess
import sys
from dataclasses import dataclass
from pathlib import Path

import plan_text
from call_words import entries_of
from plan_text import Refused
from reference import configuration, rollout

USAGE, RULE, FAILED = 2, 3, 4
# What a plan leaves out of a plugin.
RESTORED = ("endpoint", "timeout", "cachesize")


@dataclass(frozen=True)
class Step:
    """A step of the plan: its word, its file, whose keys it writes by, and what is to be done behind it."""

    word: str
    file: str
    writes_as: str
    reads: str
    behind: str


STEPS = (
    Step("wide", "1-wide.yaml", "{old}", "{old} and {new}", "Behind the last one: 2-turned.yaml."),
    Step("turned", "2-turned.yaml", "{new}", "{old} and {new}", "Behind the last one: etcd-to-store, kmsrest rewrite (`left 0`), store-to-etcd; then 3-to.yaml."),
    Step("to", "3-to.yaml", "{new}", "{new}", "Behind the last one: when an old key may go, docs/OPERATORS.md says."),
)


def is_asked(call):
    return call.command == "plan" and "files" in call.options


def without(words):
    """The words of the program itself, which knows no --files."""
    kept, rest = [], list(words)
    while rest:
        word = rest.pop(0)
        if word == "--files":
            rest[:1] = []
        elif not word.startswith("--files="):
            kept.append(word)
    return kept


def write(call, program):
    """Writes the files behind a plan that was printed, and tells their names. Answers the status."""
    try:
        made = texts(call, str(program))
        for step, name in zip(STEPS, keep(Path(call.one("files")), made)):
            print(step.word, name)
        sys.stdout.flush()
    except Refused as no:
        return told(no)
    except OSError as error:
        # (what is left in the buffer goes nowhere, and isn't tried again at the end)
        os.dup2(os.open(os.devnull, os.O_WRONLY), sys.stdout.fileno())
        return told(Refused(f"the files are written, and standard output took no line of it: {error.strerror}", FAILED))
    return 0


def told(no):
    print(f"kmsrest: plan --files: {no.text}", file=sys.stderr)
    return no.status


def refused_words(call):
    """Why the words mean no such call, or where its files would be written over; or None."""
    if len(call.options["files"]) > 1 or not call.one("files"):
        return Refused("--files FOLDER names one folder", USAGE)
    if "show" in call.options:
        return Refused("--show prints one configuration, and --files writes all: one of the two", USAGE)
    return taken(Path(call.one("files")))


def taken(folder):
    """What of the files is there already, before a plan is printed that would then not be written; or None."""
    if folder.exists() and not folder.is_dir():
        return Refused(f"{folder} is no folder", FAILED)
    there = [folder / step.file for step in STEPS if os.path.lexists(folder / step.file)]
    return Refused(f"{there[0]} is there already, and nothing is written over", FAILED) if there else None


def texts(call, program):
    """The text of each step's file."""
    names = {"old": call.one("from"), "new": call.one("to")}
    plugins = restored([plan_text.Given.read(name) for name in names.values()])
    shown = {word: shown_by(program, call, word) for word in ("wide", "turned")}
    shown["to"] = entries_of(names["new"])
    made = []
    for number, step in enumerate(STEPS, 1):
        head = plan_text.head(step, number, call.one("replicas"), names)
        same = plan_text.kept(names["new"]) if step.word == "to" else None
        text = head + (same or plan_text.written(plan_text.joined(shown[step.word]), plugins))
        judge(step, text, shown[step.word])
        made.append(text)
    return made


def restored(given):
    """What each plugin has in the two files, by its name; both must say the same of it."""
    found = {}
    for file in given:
        for plugin in file.plugins:
            members = {name: value for name in RESTORED if (value := plugin.members.get(name)) is not None}
            before = found.setdefault(plugin.name, (members, plugin.place))
            for name in RESTORED:
                if before[0].get(name) != members.get(name):
                    raise Refused(
                        f"the plugin {plugin.shown} has another `{name}` at {plugin.place} than at {before[1]}, and a file in between can "
                        "have one alone: write the same into both, or give the new plugin another name"
                    )
    return {name: members for name, (members, _place) in found.items()}


def shown_by(program, call, word):
    """A configuration of the plan, as the program shows it."""
    done = subprocess.run([program, *without(call.words), "--show", word], stdout=subprocess.PIPE, check=False)
    if done.returncode != 0:
        raise Refused(f"`plan --show {word}` ended with {done.returncode}", FAILED)
    return configuration.read(done.stdout)


def judge(step, text, shown):
    """A file that is read otherwise than the plan has it isn't written."""
    try:
        entries = configuration.read(text.encode())
    except (configuration.Breach, UnicodeEncodeError):
        raise Refused(f"{step.file} couldn't be written so that it is read again: a name or an endpoint has characters beyond ASCII") from None
    if any(rollout.list_at(entries, found) != rollout.list_at(shown, found) for found in rollout.classes_of(entries, shown)):
        raise Refused(f"{step.file} would be read otherwise than the plan has it; `plan --show` has what it should say")


def keep(folder, made):
    """The files get their names, of their owner alone."""
    sys.path.append(str(Path(__file__).resolve().parent.parent / "bridges"))
    from etcd_bridge.errors import BridgeError
    from etcd_bridge.new_files import NewFiles

    names = [str(folder / step.file) for step in STEPS]
    is_new = not folder.exists()
    files = NewFiles()
    try:
        folder.mkdir(mode=0o700, exist_ok=True)
        for name, text in zip(names, made):
            files.open(name).write(text.encode())
        files.keep()
    except (BridgeError, OSError) as no:
        files.drop()
        if is_new and folder.is_dir() and not os.listdir(folder):
            folder.rmdir()
        raise Refused(str(no) if isinstance(no, BridgeError) else f"{folder}: {no.strerror}", FAILED) from None
    return names
