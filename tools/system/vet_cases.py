"""Cases of kmsrest-vet: for each code a change of which it is told, with its line, and changes beside it that stay silent."""
import base64
import random
from dataclasses import dataclass

DRAW = random.Random(20261201)


def secret(size: int = 32) -> str:
    return base64.b64encode(DRAW.randbytes(size)).decode()


K1, K2, K3 = secret(), secret(), secret(16)
HEAD = "apiVersion: apiserver.config.k8s.io/v1\nkind: EncryptionConfiguration\nresources:\n"


@dataclass(frozen=True)
class Case:
    """A change, the words besides, the code, and the line at which it is told; no line: it isn't told at all."""

    what: str
    code: str
    new: str
    line: int | None = None
    words: tuple[str, ...] = ()
    base: str | None = None
    mode: int = 0o600


def key(name: str, text: str = "", kind: str = "aescbc", more: str = "") -> str:
    return f"      - {kind}:\n          keys:\n            - name: {name}{more}\n              secret: {text or {'key1': K1, 'key2': K2}.get(name, K3)}\n"


def plugin(name: str = "p", endpoint: str = "unix:///run/p.sock", more: str = "", version: str = "v2") -> str:
    lines = f"      - kms:\n          apiVersion: {version}\n          name: {name}\n          endpoint: {endpoint}\n"
    return lines + (f"          {more}\n" if more else "")


IDENTITY = "      - identity: {}\n"


def entry(resources: str, *providers: str) -> str:
    return f"  - resources: [{resources}]\n    providers:\n{''.join(providers)}"


def whole(*entries: str) -> str:
    return HEAD + "".join(entries)


def of(resources: str, *providers: str) -> str:
    return whole(entry(resources, *(providers or (key("key1"), IDENTITY))))


OLD = of("secrets")
BOTH = of("secrets", key("key1"), key("key2"), IDENTITY)
NEW = of("secrets", key("key2"), key("key1"), IDENTITY)
LAST = of("secrets", key("key2"), IDENTITY)
OTHER = of("secrets", key("key1", K3), IDENTITY)
OFF = of("secrets", IDENTITY)
KMS = of("secrets", plugin())


def at(minor: int, *more: str) -> tuple[str, ...]:
    return ("--kubernetes", f"1.{minor}", *more)


def json_of(text: str) -> str:
    return '{"apiVersion":"apiserver.config.k8s.io/v1","kind":"EncryptionConfiguration",\n"resources":[' + text + "]}"


IN_JSON = json_of('{"resources":["secrets"],"providers":[{"identity":{}}]}')

CHANGE = (
    Case("a secret of five bytes", "breach", of("secrets", key("key1", "aGVsbG8="), IDENTITY), 9),
    Case("a broken base", "breach", OLD, 9, base=of("secrets", key("key1", "aGVsbG8="), IDENTITY)),
    Case("a file in order", "breach", OLD),
    Case("a writer that others don't read yet", "unread", NEW, 5),
    Case("a reader that is added first", "unread", BOTH),
    Case("the same from where all read it", "unread", NEW, base=BOTH),
    Case("one API server alone", "unread", NEW, words=("--replicas", "1")),
    Case("a writer that is dropped", "drops-writer", LAST, 5),
    Case("a reader that is dropped", "drops-writer", LAST, base=NEW),
    Case("another secret of one name", "clash", of("secrets", key("key2"), key("key1", K3), IDENTITY), 5, base=NEW),
    Case("another secret of another name", "clash", of("secrets", key("key2"), key("key3"), IDENTITY), base=NEW),
    Case("one API server's own writer is dropped", "own-writer", LAST, 5, words=("--replicas", "1")),
    Case("it is turned first", "own-writer", NEW, words=("--replicas", "1")),
    Case("a reader that is dropped", "drops-reader", LAST, 5, base=NEW),
    Case("identity that is dropped", "drops-reader", of("secrets", key("key1")), 5),
    Case("a reader that moves", "drops-reader", BOTH, base=NEW),
    Case("a key that comes first, and one behind it that goes", "drops-reader", of("secrets", key("key1"), IDENTITY), 5, base=BOTH),
    Case("identity comes first where a key was", "in-the-clear", of("secrets", IDENTITY, key("key1")), 5),
    Case("an entry is taken out", "in-the-clear", whole(entry("configmaps", IDENTITY)), 3, words=("--replicas", "1")),
    Case("identity was first before", "in-the-clear", of("secrets", IDENTITY, key("key1")), base=OFF),
    Case("an entry that was in the clear is taken out", "in-the-clear", of("secrets"), base=whole(entry("secrets", key("key1"), IDENTITY), entry("configmaps", IDENTITY))),
    Case("identity in front of a key", "identity-first", of("secrets", IDENTITY, key("key1")), 6, base=OFF),
    Case("identity alone", "identity-first", OFF, base=OFF),
    Case("identity behind a key", "identity-first", OLD),
)

SERVER = (
    Case("a member misspelled", "unknown-member", of("secrets", plugin(more="timout: 3s"), IDENTITY), 10),
    Case("a member at the top", "unknown-member", OLD + "metadata: {}\n", 11),
    Case("a member of a key", "unknown-member", of("secrets", key("key1", K1 + "\n              sceret: x")), 10),
    Case("all known members", "unknown-member", of("secrets", plugin(more="timeout: 3s"), IDENTITY)),
    Case("a version that ignores it", "unknown-member", of("secrets", plugin(more="timout: 3s")), words=at(30)),
    Case("a member that is ignored", "ignored-member", of("secrets", plugin(more="timout: 3s")), 10, words=at(30)),
    Case("a version that refuses it", "ignored-member", of("secrets", plugin(more="timout: 3s")), words=at(31)),
    Case("all known members", "ignored-member", KMS, words=at(30)),
    Case("a member of JSON twice", "member-twice", IN_JSON.replace("{}", '{},"identity":{}'), 1, base=OFF),
    Case("one name in two objects", "member-twice", json_of('{"resources":["secrets"],"providers":[{"identity":{}}]},{"resources":["events"],"providers":[{"identity":{}}]}'), base=OFF),
    Case("a version that takes the last", "member-twice", IN_JSON.replace("{}", '{},"identity":{}'), base=OFF, words=at(30)),
    Case("cachesize with v2", "cachesize-of-v2", of("secrets", plugin(more="cachesize: 100")), 10),
    Case("cachesize that is nothing", "cachesize-of-v2", of("secrets", plugin(more="cachesize: null"))),
    Case("a version without v2", "cachesize-of-v2", of("secrets", plugin(more="cachesize: 100")), words=at(24)),
    Case("a cachesize of 0", "cachesize", of("secrets", plugin(more="cachesize: 0")), 10, words=at(20)),
    Case("a cachesize in quotes", "cachesize", of("secrets", plugin(more="cachesize: '5'")), 10, words=at(20)),
    Case("a cachesize of 0 with v2", "cachesize", of("secrets", plugin(more="cachesize: 0")), words=at(25)),
    Case("a cachesize below 0", "cachesize", of("secrets", plugin(more="cachesize: -1")), words=at(20)),
    Case("a timeout without a unit", "timeout", of("secrets", plugin(more="timeout: 3")), 10),
    Case("a timeout below 0", "timeout", of("secrets", plugin(more="timeout: -3s")), 10),
    Case("a timeout in words", "timeout", of("secrets", plugin(more="timeout: soon")), 10),
    Case("a timeout in two units", "timeout", of("secrets", plugin(more="timeout: 1m30s"))),
    Case("no timeout", "timeout", KMS),
    Case("half of an escape", "endpoint-url", of("secrets", plugin(endpoint="unix:///x%ck")), 9),
    Case("a space in a host", "endpoint-url", of("secrets", plugin(endpoint="unix://a b")), 9),
    Case("an escape", "endpoint-url", of("secrets", plugin(endpoint="unix:///x%2Fk"))),
    Case("a space in a path", "endpoint-url", of("secrets", plugin(endpoint="unix:///a b"))),
    Case("a number for a name", "no-text", of("secrets", key("1"), IDENTITY), 8, base=OFF),
    Case("a truth value for a resource", "no-text", of("'secrets', yes"), 4, base=OFF),
    Case("a number in quotes", "no-text", of("secrets", key("'1'"), IDENTITY), base=OFF),
    Case("a name with a number in it", "no-text", of("secrets", key("1a"), IDENTITY), base=OFF),
    Case("identity without a value", "nothing", of("secrets", key("key1"), "      - identity:\n"), 10),
    Case("a name that is nothing", "nothing", of("secrets", key("NULL"), IDENTITY), 8, base=OFF),
    Case("identity with braces", "nothing", OLD),
    Case("nothing in quotes", "nothing", of("secrets", key("'NULL'"), IDENTITY), base=OFF),
    Case("a name of one dash", "lone-dash", of("secrets", key("-"), IDENTITY), 8, base=OFF),
    Case("a dash in quotes", "lone-dash", of("secrets", key("'-'"), IDENTITY), base=OFF),
    Case("a dash before a name", "lone-dash", of("secrets", key("-a"), IDENTITY), base=OFF),
    Case("a slash with an escape", "escaped-slash", of("secrets", plugin(endpoint='"unix:\\/\\/\\/run/p"')), 9),
    Case("a slash in quotes", "escaped-slash", of("secrets", plugin(endpoint='"unix:///run/p"'))),
    Case("a backslash before a slash", "escaped-slash", of("secrets", plugin(name='"a\\\\/b"'))),
    Case("the same in single quotes", "escaped-slash", of("secrets", plugin(name="'a\\/b'"))),
    Case("a tab behind a colon of a name", "colon-tab", of("secrets", plugin(more="cachesi:\tze: 1")), 10, words=at(20)),
    Case("a tab in a name", "colon-tab", of("secrets", plugin(more="cachesi\tze: 1")), words=at(20)),
    Case("a plugin in two entries", "plugin-twice", whole(entry("secrets", plugin()), entry("events", plugin())), 14, base=KMS),
    Case("a plugin in one entry of two resources", "plugin-twice", of("secrets, configmaps", plugin()), base=KMS),
    Case("two plugins", "plugin-twice", whole(entry("secrets", plugin()), entry("events", plugin("q"))), base=KMS),
    Case("a version that takes it", "plugin-twice", whole(entry("secrets", plugin()), entry("events", plugin())), base=KMS, words=at(25)),
    Case("a colon in a plugin's name", "colon", of("secrets", plugin("'a:b'")), 8),
    Case("a colon in a key's name", "colon", of("secrets", key("'a:b'")), 8),
    Case("another name that is refused", "colon", of("secrets", key("'a b'"))),
    Case("a dash in a name", "colon", of("secrets", key("a-b"), IDENTITY), base=OFF),
    Case("behind all of its group", "masked", whole(entry("'*.apps'", key("key1"), IDENTITY), entry("deployments.apps", IDENTITY)), 11, base=OFF),
    Case("behind all", "masked", whole(entry("'*.*'", key("key1"), IDENTITY), entry("secrets", IDENTITY)), 11, base=OFF),
    Case("the same wildcard again", "masked", whole(entry("'*.apps'", IDENTITY), entry("'*.apps'", IDENTITY)), 7, base=OFF),
    Case("before all", "masked", whole(entry("secrets", key("key1"), IDENTITY), entry("'*.*'", IDENTITY))),
    Case("behind another group", "masked", whole(entry("'*.apps'", IDENTITY), entry("secrets", key("key1"), IDENTITY))),
    Case("a version without wildcards", "masked", whole(entry("'*.*'", IDENTITY), entry("secrets", IDENTITY)), base=OFF, words=at(26)),
    Case("events of their own group", "other-events", of("events.events.k8s.io"), 4, base=OFF),
    Case("all of that group", "other-events", of("'*.events.k8s.io'"), 4, base=OFF),
    Case("events", "other-events", of("events"), base=OFF),
    Case("events of their own group, unnoticed", "moved-group", of("events.events.k8s.io"), 4, base=OFF, words=at(26)),
    Case("the group extensions, unnoticed", "moved-group", of("ingresses.extensions"), 4, base=OFF, words=at(26)),
    Case("a version that refuses it", "moved-group", of("ingresses.extensions"), base=OFF, words=at(27)),
    Case("the group of today", "moved-group", of("ingresses.networking.k8s.io"), base=OFF, words=at(26)),
    Case("the group extensions", "extensions", of("ingresses.extensions"), 4, base=OFF),
    Case("its group of today", "extensions", of("ingresses.networking.k8s.io"), base=OFF),
    Case("what has no API", "addresses", of("apiserveripinfo"), 4, base=OFF),
    Case("services", "addresses", of("services"), base=OFF),
    Case("v2 where it isn't known", "kms-as-v1", KMS, 7, words=at(24)),
    Case("v2 where it is known", "kms-as-v1", KMS, words=at(25)),
    Case("v2 behind a gate", "kms-alpha", KMS, 7, words=at(26)),
    Case("v2 without a gate", "kms-alpha", KMS, words=at(27)),
    Case("no plugin", "kms-alpha", OLD, words=at(26)),
    Case("a wildcard with a key", "wildcards", of("'*.*'"), 4, base=OFF, words=at(26)),
    Case("a wildcard without a key", "wildcards", whole(entry("secrets", key("key1"), IDENTITY), entry("'*.*'", IDENTITY)), words=at(26)),
    Case("a wildcard in front of what it matches", "wildcards", whole(entry("'*.*'", IDENTITY), entry("secrets", key("key1"), IDENTITY)), 4, words=at(26)),
    Case("a version that knows them", "wildcards", of("'*.*'"), base=OFF, words=at(27)),
    Case("one resource in two entries", "two-entries", whole(entry("secrets", key("key1"), IDENTITY), entry("secrets", key("key2"))), 11),
    Case("two resources in two entries", "two-entries", whole(entry("secrets", key("key1"), IDENTITY), entry("events", key("key2"), IDENTITY))),
    Case("a base with a wildcard", "base-otherwise", BOTH, 4, base=of("'*.*'"), words=at(26, "--replicas", "1")),
    Case("a base with a resource twice", "base-otherwise", OLD, 11, base=whole(entry("secrets", key("key1"), IDENTITY), entry("secrets", key("key2")))),
    Case("a version that reads it so", "base-otherwise", BOTH, base=of("'*.*'"), words=at(27, "--replicas", "1")),
    Case("a base without them", "base-otherwise", BOTH, words=at(26)),
    Case("a custom resource", "unsealed", of("gadgets.example.com"), 4, base=OFF, words=at(25)),
    Case("definitions", "unsealed", of("customresourcedefinitions.apiextensions.k8s.io"), 4, base=OFF, words=at(25)),
    Case("what stays in the clear", "unsealed", of("gadgets.example.com", IDENTITY), base=OFF, words=at(25)),
    Case("a built-in group", "unsealed", of("leases.coordination.k8s.io"), base=OFF, words=at(25)),
    Case("a version that seals them", "unsealed", of("gadgets.example.com"), base=OFF, words=at(26)),
    Case("a tab behind an endpoint", "endpoint-tab", of("secrets", plugin(endpoint="unix:///run/p\t")), 9),
    Case("a blank behind an endpoint", "endpoint-tab", of("secrets", plugin(endpoint="unix:///run/p "))),
    Case("two slashes", "endpoint-host", of("secrets", plugin(endpoint="unix://run/p.sock")), 9),
    Case("three slashes", "endpoint-host", KMS),
    Case("reviews of tokens", "unstored", of("tokenreviews.authentication.k8s.io"), 4, base=OFF),
    Case("bindings", "unstored", of("bindings"), 4, base=OFF),
    Case("pods", "unstored", of("pods"), base=OFF),
    Case("the singular", "unknown-resource", of("secret"), 4, base=OFF),
    Case("a resource without its group", "unknown-resource", of("deployments"), 4, base=OFF),
    Case("a group misspelled", "unknown-resource", of("'*.app'"), 4, base=OFF),
    Case("the plural", "unknown-resource", OLD),
    Case("a custom resource", "unknown-resource", of("gadgets.example.com"), base=OFF),
    Case("a group's wildcard", "unknown-resource", of("'*.apps', '*.', '*.example.com'"), base=OFF),
)

DANGER = (
    Case("the endpoint of a plan", "placeholder-endpoint", of("secrets", plugin(endpoint="unix:///p")), 9),
    Case("an endpoint of its own", "placeholder-endpoint", of("secrets", plugin(endpoint="unix:///run/p"))),
    Case("a plugin that listens elsewhere", "other-endpoint", of("secrets", plugin(endpoint="unix:///run/q.sock")), 9, base=KMS),
    Case("a plugin that stays where it is", "other-endpoint", of("secrets", plugin(more="timeout: 3s")), base=KMS),
    Case("another plugin elsewhere", "other-endpoint", of("secrets", plugin(), plugin("q", "unix:///run/q.sock")), base=KMS),
    Case("two names of one secret", "one-secret", of("secrets", key("key1"), key("key2", K1), IDENTITY), 13),
    Case("a new name of the old secret", "one-secret", of("secrets", key("key1"), key("key9", K1), IDENTITY), 13),
    Case("two kinds of one secret", "one-secret", of("secrets", key("key1"), key("key1", K1, "aesgcm"), IDENTITY), 13),
    Case("two names of two secrets", "one-secret", BOTH),
    Case("one key in two entries", "one-secret", whole(entry("secrets", key("key1"), IDENTITY), entry("events", key("key1"), IDENTITY))),
    Case("a secret of zeros", "zero-secret", of("secrets", key("key1"), key("key2", base64.b64encode(bytes(32)).decode()), IDENTITY), 13),
    Case("a secret of some zeros", "zero-secret", of("secrets", key("key1"), key("key2", base64.b64encode(bytes(8) + b"\x80\x91\xa2\xf3\x84\xe5\xb6\xc7").decode()), IDENTITY)),
    Case("a password", "text-secret", of("secrets", key("key1"), key("key2", base64.b64encode(b"correct horse battery staple 12\n").decode()), IDENTITY), 13),
    Case("random bytes", "text-secret", BOTH),
    Case("Kubernetes' example", "example-secret", of("secrets", key("key1"), key("key2", base64.b64encode(b"secret is secure").decode()), IDENTITY), 13),
    Case("bytes that count", "example-secret", of("secrets", key("key1"), key("key2", base64.b64encode(bytes(range(32))).decode()), IDENTITY), 13),
    Case("a secret of one's own", "example-secret", BOTH),
    Case("a key of aesgcm that writes", "aesgcm-writes", of("secrets", key("key1", kind="aesgcm"), IDENTITY), 8, base=OFF),
    Case("a day that is past", "aesgcm-writes", of("secrets", key("key1", kind="aesgcm", more=" # exchange by 2001-01-01"), IDENTITY), 8, base=OFF),
    Case("a day that is to come", "aesgcm-writes", of("secrets", key("key1", kind="aesgcm", more=" # exchange by 2999-01-01"), IDENTITY), base=OFF),
    Case("a key of aesgcm that reads", "aesgcm-writes", of("secrets", key("key1"), key("key2", kind="aesgcm"), IDENTITY)),
    Case("it is allowed", "aesgcm-writes", of("secrets", key("key1", kind="aesgcm"), IDENTITY), base=OFF, words=("--allow", "aesgcm-writes")),
    Case("a file that others read", "readable-file", BOTH, 0, mode=0o644),
    Case("a file that a group reads", "readable-file", BOTH, 0, mode=0o640),
    Case("a file of its owner", "readable-file", BOTH),
    Case("a file without keys", "readable-file", KMS, base=KMS, mode=0o644),
)
ALL = (*CHANGE, *SERVER, *DANGER)
