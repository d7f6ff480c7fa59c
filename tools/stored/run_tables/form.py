"""How a case is written, and what many of them use."""

import json
import re

PATH = "/registry/secrets/d/s"
SECRETS = {
    "K16": "AAECAwQFBgcICQoLDA0ODw==",
    "K24": "AAECAwQFBgcICQoLDA0ODxAREhMUFRYX",
    "K32": "AAECAwQFBgcICQoLDA0ODxAREhMUFRYXGBkaGxwdHh8=",
    "Z16": "AAAAAAAAAAAAAAAAAAAAAA==",
    "S1": "c2VjcmV0IGlzIHNlY3VyZQ==",
    "S2": "dGhpcyBpcyBwYXNzd29yZA==",
}
IV = bytes.fromhex("10013223544576679889baabdccdfeef")
RUN = re.compile(rb"(.)\1{39,}", re.S)
LETTERS = {"\n": "\\n", "\r": "\\r", "\t": "\\t", "\\": "\\b"}


def spell(data, bare=False):
    """The text that spells the bytes; `bare` without spaces and with a sign for nothing, as a word or a name needs it."""
    if isinstance(data, str):
        data = data.encode()
    run = RUN.search(data)
    if run:
        front, back = data[: run.start()], data[run.end() :]
        return "".join((spell(front, bare) if front else "", repeated(len(run[0]), run[1]), spell(back, bare) if back else ""))
    try:
        text = data.decode()
        if any(mark not in LETTERS and not mark.isprintable() for mark in text):
            raise ValueError
    except ValueError:
        front = data[: next((at for at, byte in enumerate(data) if not 0x20 <= byte <= 0x7E), len(data))]
        return (spell(front, bare) if front else "") + f"\\({data[len(front) :].hex()})"
    text = "".join(LETTERS.get(mark, mark) for mark in text)
    if bare:
        return text.replace(" ", "\\s") or "\\e"
    core = text.strip(" ")
    front = len(text) - len(text.lstrip(" "))
    return "\\s" * front + core + "\\s" * (len(text) - len(core) - front)


def repeated(times, data):
    """The spelling of so many times the bytes; it is passed where spelled text is wanted."""
    return Spelled(f"\\({times}*{data.hex()})")


class Spelled(str):
    """A text that is spelled already."""

    def __add__(self, other):
        return Spelled(str.__add__(self, other if isinstance(other, Spelled) else spell(other)))


def spelled(data):
    return data if isinstance(data, Spelled) else spell(data)


class Book:
    """The cases so far."""

    def __init__(self):
        self.lines, self.names = [], set()

    def title(self, text):
        self.lines += ["", f"# ---- {text}", ""]

    def case(self, name, words, files=(), data=b"", dice=None, fails=(), room=None, step=None, tapes=(), plugins=(), absent=()):
        """A case; `dice` are pairs of seats and bytes, `fails` pairs of objects and numbers, `plugins` the lines of plugins."""
        if name in self.names:
            raise ValueError(f"two cases of one name: {name}")
        self.names.add(name)
        add = self.lines.append
        add(f"case {name}")
        if words:
            add("words " + " ".join(spell(word, True) for word in words))
        for file, content in files:
            self.file(file, content)
        if data:
            add(f"input {spelled(data)}")
        for seat, content in dice or ():
            add(f"dice {seat} {spelled(content)}".rstrip(" "))
        for tape, content in tapes:
            add(f"tape {spell(tape, True)} {spelled(content)}".rstrip(" "))
        for tape in absent:
            add(f"absent {spell(tape, True)}")
        self.lines += plugins
        for item, numbers in fails:
            add(f"fails {item} {numbers}")
        if room is not None:
            add(f"room {room}")
        if step is not None:
            add(f"step {step}")

    def file(self, name, content):
        lines = content.split("\n") if isinstance(content, str) and not isinstance(content, Spelled) else []
        if len(lines) > 2 and not lines[-1]:
            self.lines.append(f"file {spell(name, True)}")
            self.lines += [f"| {spell(line)}".rstrip(" ") for line in lines[:-1]]
        else:
            self.lines.append(f"file {spell(name, True)} {spelled(content)}".rstrip(" "))

    def text(self):
        return "\n".join(self.lines[1:]) + "\n"


# ---- configurations


def provider(text):
    """A provider element: `identity`, `aescbc:NAME=SECRET`, `aesgcm:NAME=SECRET` with further keys behind `+`, `kms:NAME`."""
    kind, _, rest = text.partition(":")
    if kind == "identity":
        return {"identity": {}}
    if kind == "kms":
        return {"kms": {"apiVersion": "v2", "name": rest, "endpoint": "unix:///run/p"}}
    keys = [key.partition("=") for key in rest.split("+")]
    return {kind: {"keys": [{"name": name, "secret": SECRETS.get(secret, secret)} for name, _, secret in keys]}}


def whole(entries):
    return {"apiVersion": "apiserver.config.k8s.io/v1", "kind": "EncryptionConfiguration", "resources": entries}


def entries_of(text):
    """Entries as `patterns: providers`, parted by ` | `."""
    found = []
    for entry in text.split(" | "):
        patterns, _, providers = entry.partition(": ")
        found.append({"resources": patterns.split(","), "providers": [provider(it) for it in providers.split(", ")]})
    return found


def dumped(tree):
    return json.dumps(tree, separators=(",", ":"), ensure_ascii=False)


def config(text):
    return dumped(whole(entries_of(text)))


# ---- calls


def object_words(command, resource="secrets", path=PATH, name="c.json"):
    return [command, "--config", name, "--resource", resource, "--path", path]


def check_words(resource=None):
    return ["check", "--config", "c.json"] + (["--resource", resource] if resource is not None else [])
