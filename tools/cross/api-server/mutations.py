"""Configurations that were changed at random, in YAML and in JSON: by pieces of text, by whole lines, and by parts of the tree."""

import copy
import json
import random
from dataclasses import dataclass

SECRETS = ("AAECAwQFBgcICQoLDA0ODw==", "ICEiIyQlJicoKSorLC0uLzAxMjM0NTY3ODk6Ozw9Pj8=", "QEFCQ0RFRkdISUpLTE1OT1BRUlNUVVZX")
WHOLE = (
    f"""apiVersion: apiserver.config.k8s.io/v1
kind: EncryptionConfiguration
resources:
- resources:
  - secrets
  - "configmaps"
  providers:
  - aescbc:
      keys:
      - name: key1
        secret: {SECRETS[0]}
  - aesgcm:
      keys:
      - name: key2
        secret: "{SECRETS[1]}"
      - name: 'k3'
        secret: {SECRETS[2]}
  - identity: {{}}
""",
    f"""---
# an example
apiVersion: apiserver.config.k8s.io/v1
kind: 'EncryptionConfiguration'
resources:
  - resources: [secrets, 'events', "deployments.apps"]
    providers:
      - identity: {{}} # first
      - aesgcm:
          keys:
            - name: k
              secret: "{SECRETS[0]}"
  - resources:
      - configmaps
    providers: # the rest
      - aescbc:
          keys:
            - secret: {SECRETS[1]}
              name: key1
""",
    f"""kind: EncryptionConfiguration
apiVersion: apiserver.config.k8s.io/v1
resources:
  - resources:
      - secrets
    providers:
      - kms:
          apiVersion: v2
          name: vault
          endpoint: unix:///var/run/kms.sock
          timeout: 3s
          cachesize: 100
      - aescbc:
          keys:
            - name: key1
              secret: {SECRETS[2]}
      - identity: {{}}
""",
)
PIECES = (
    *("\r", "\r\n", "\n", "\u0085", "\u2028", "\u2029", "\ufeff", "\u00a0", "\x01", "\x7f", "\u0080", "\ue000", "\ufffd", "\u00e9"),
    *("\t", " ", "  ", "#", " #", " # x", ":", ": ", " :", "-", "- ", "---", "---\n", "\n---\n", "\n--- a\n", "...", "\n...\n"),
    *("<<: ", "\n<<: {}\n", "'", "''", '"', "\\", "\\n", "\\/", "\\t", "[", "]", "{", "}", "{}", "[]", ",", "&a ", "*a", "!t "),
    *("|", ">", "?", "? ", "%", "@", "`", "=", "null", "~", "Null", "true", "yes", "No", "1", "0x1F", "1e3", ".5", "-2", "-"),
    *("2001-01-01", "a", "name", "providers:", "- identity: {}", "\n- identity: {}", "\n  ", "\n    ", "\n\n", "a: b", "\na: b\n"),
    *("\n  a: b\n", "- - ", "-\t", ":\t", "A", "=", "/", "+", "key1", "secrets", "aescbc", "identity", "unix://", "Secrets", "*.*"),
)
ENDS = ("\r", " ", "\t", " # x", "#", ":", " \u2028b: c", "\u0085b: c", "\n")
# What may stand in the place of a member's value, by the member.
KEY0 = {"keys": [{"name": "key1", "secret": SECRETS[0]}]}
FITTING = {
    "name": ("key1", "key2", "k:1", "k 1", "\u00e9", "x" * 253, "x" * 254, "-", "1", "true", "null", "", "vault", "a/b", "\t", 1, True),
    "secret": (
        *SECRETS,
        *(SECRETS[0] + "\n", "AAECAwQFBg\ncICQoLDA0ODw==", "AAECAwQFBgcICQoLDA0ODx==", SECRETS[0][:-2], SECRETS[0][:-1], " " + SECRETS[0]),
        *("AAECAwQ=", "", None, True, 1234567890123456, SECRETS[1].replace("/", "_"), SECRETS[0] + "\r\n"),
    ),
    "endpoint": ("unix:///x%ck", "unix:relative", "unix:/x", "tcp://a", "unix://\u007f", "unix://a b", "unix://[", "unix://", "@a", "unix:///%41"),
    "timeout": ("-1s", "0s", "soon", "1h2m", 3, None, "3", "1us", ""),
    "cachesize": (0, -1, 1.5, "1", None, 2**31),
    "apiVersion": ("v1", "v2", "v2beta1", "apiserver.config.k8s.io/v1", "apiserver.config.k8s.io/v1alpha1", "v3", ""),
    "kind": ("EncryptionConfig", "EncryptionConfiguration", "Secret", "encryptionConfiguration"),
    "identity": (None, {}, {"a": 1}, [], "", "x"),
    "aescbc": (None, KEY0, {"keys": []}, {"keys": None}, {}),
    "aesgcm": (None, KEY0, {"keys": []}, {}),
    "kms": (None, {}, {"apiVersion": "v2", "name": "vault", "endpoint": "unix:///a"}),
    "resources": (["secrets"], ["secrets", "secrets"], [], None, ["Secrets"], ["*.*"], ["secrets", "*."], ["a/b"], [""], ["configmaps"]),
    "providers": ([{"identity": {}}], [{"identity": {}}, {"identity": {}}], [], None, [{"aescbc": KEY0}], [{"aescbc": None, "identity": {}}]),
    "keys": ([], None, KEY0["keys"], KEY0["keys"] * 2),
}
# What may stand in the place of any value.
VALUES = (
    *(None, True, False, 0, 1, -1, 1.5, "", "-", "a", "key1", "k:1", "k 1", "\u00e9", "x" * 300, [], {}, [None], ["secrets"], [{}]),
    *("secrets", "Secrets", "configmaps", "deployments.apps", "secret", "*.apps", "a/b", "events.events.k8s.io"),
    *(SECRETS[0], SECRETS[1] + "\n", SECRETS[0][:-2], "AAECAwQFBgcICQoLDA0ODx==", "AAECAwQFBgcICQoLDA0ODw=", "AAEC\nAwQFBgcICQoLDA0ODw=="),
    *("AAECAwQ=", "unix:///x%ck", "unix:relative", "tcp://a", "unix://\u007f", "3s", "-1s", "0s", "soon", "v1", "v2", "v2beta1"),
    *({"keys": []}, {"keys": None}, {"name": "a"}, {"keys": [{"name": "key1", "secret": SECRETS[0]}]}, {"aescbc": None}),
    *("apiserver.config.k8s.io/v1", "v1", "EncryptionConfig", "EncryptionConfiguration"),
)
KEYS = ("name", "secret", "keys", "identity", "aescbc", "aesgcm", "kms", "secretbox", "resources", "providers", "kind", "apiVersion")
KEYS += ("endpoint", "timeout", "cachesize", "secert", "Name", "metadata")


def bases() -> list[dict]:
    """The same configurations as trees."""
    key = lambda name, which: {"name": name, "secret": SECRETS[which]}
    entry = lambda names, *providers: {"resources": names, "providers": list(providers)}
    head = {"apiVersion": "apiserver.config.k8s.io/v1", "kind": "EncryptionConfiguration"}
    kms = {"apiVersion": "v2", "name": "vault", "endpoint": "unix:///var/run/kms.sock", "timeout": "3s", "cachesize": 100}
    mixed = ({"aescbc": {"keys": [key("key1", 0)]}}, {"aesgcm": {"keys": [key("key2", 1), key("k3", 2)]}}, {"identity": {}})
    other = ({"identity": {}}, {"aesgcm": {"keys": [key("k", 0)]}})
    return [
        {**head, "resources": [entry(["secrets", "configmaps"], *mixed)]},
        {**head, "resources": [entry(["secrets", "events"], *other), entry(["configmaps"], {"aescbc": {"keys": [key("key1", 1)]}})]},
        {**head, "resources": [entry(["secrets"], {"kms": kms}, {"aescbc": {"keys": [key("key1", 2)]}}, {"identity": {}})]},
    ]


def with_piece(draw: random.Random, text: str) -> str:
    """A piece put in at a place, perhaps over some signs."""
    begin = draw.randrange(len(text) + 1)
    end = min(len(text), begin + draw.randrange(4)) if draw.random() < 0.33 else begin
    piece = "" if draw.random() < 0.1 else draw.choice(PIECES)
    return text[:begin] + piece + text[end:]


def with_lines(draw: random.Random, text: str) -> str:
    """A line dropped, doubled, moved, further to the right or left, or with another end."""
    lines = text.split("\n")
    at, kind = draw.randrange(len(lines)), draw.randrange(6)
    if kind == 0:
        del lines[at]
    elif kind == 1:
        lines.insert(at, lines[at])
    elif kind == 2:
        other = draw.randrange(len(lines))
        lines[at], lines[other] = lines[other], lines[at]
    elif kind == 3:
        lines[at] = " " * draw.randint(1, 3) + lines[at]
    elif kind == 4:
        lines[at] = lines[at].removeprefix(" " * draw.randint(1, 3))
    else:
        lines[at] += draw.choice(ENDS)
    return "\n".join(lines)


@dataclass(frozen=True)
class Place:
    """A value of a tree: what holds it, and under which key or number."""

    holder: dict | list
    at: str | int


def places(tree: object) -> list[Place]:
    steps = tree.items() if isinstance(tree, dict) else enumerate(tree) if isinstance(tree, list) else ()
    return [found for at, below in steps for found in (Place(tree, at), *places(below))]


def change_tree(draw: random.Random, tree: dict) -> None:
    """A value replaced, dropped or doubled, or a member added or named otherwise."""
    found = places(tree)
    if not found:
        return
    it, kind = draw.choice(found), draw.randrange(12)
    if kind < 7:
        fitting = FITTING.get(it.at if isinstance(it.at, str) else "", ())
        it.holder[it.at] = copy.deepcopy(draw.choice(fitting if fitting and kind < 6 else VALUES))
    elif kind == 7:
        del it.holder[it.at]
    elif isinstance(it.holder, list):
        it.holder.insert(draw.randrange(len(it.holder) + 1), copy.deepcopy(it.holder[it.at]))
    elif kind == 8:
        it.holder[draw.choice(KEYS)] = it.holder.pop(it.at)
    else:
        added = draw.choice(KEYS)
        it.holder.setdefault(added, copy.deepcopy(draw.choice(FITTING.get(added, VALUES))))


def yaml_of(tree: object, indent: str = "") -> str:
    """A tree in YAML: blocks for what isn't empty, and JSON's own form for the rest."""
    if isinstance(tree, dict) and tree:
        parts = ((f"{json.dumps(key)}:", below) for key, below in tree.items())
    elif isinstance(tree, list) and tree:
        parts = (("-", below) for below in tree)
    else:
        return json.dumps(tree)
    lines = []
    for head, below in parts:
        inner = yaml_of(below, indent + "  ")
        is_block = isinstance(below, (dict, list)) and below
        lines.append(f"{indent}{head}\n{inner}" if is_block else f"{indent}{head} {inner}")
    return "\n".join(lines)


def as_json(draw: random.Random, tree: dict) -> str:
    text = json.dumps(tree, indent=draw.choice((None, 1)), ensure_ascii=draw.random() < 0.5)
    if draw.random() < 0.1:
        # (a member that stands twice)
        text = text.replace('"resources":', draw.choice(('"resources": [], "resources":', '"kind": "x", "resources":')), 1)
    return draw.choice(("", "", "", "", " ", "\n", "# x\n", "\ufeff")) + text


def mutated(draw: random.Random) -> bytes:
    """One of the configurations, changed one to three times."""
    kind, times = draw.randrange(4), draw.choice((1, 1, 1, 2, 3))
    if kind < 2:
        tree = copy.deepcopy(draw.choice(bases()))
        for _ in range(times):
            change_tree(draw, tree)
        text = as_json(draw, tree) if kind == 0 else yaml_of(tree) + "\n"
        times = int(draw.random() < 0.2)
    else:
        text = draw.choice(WHOLE)
    for _ in range(times):
        text = draw.choice((with_piece, with_lines))(draw, text)
    return text.encode("utf-8", "surrogatepass")
