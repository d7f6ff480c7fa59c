"""A file or more for each class of configurations that one side alone accepts, or that the two read otherwise."""

HEAD = "apiVersion: apiserver.config.k8s.io/v1\nkind: EncryptionConfiguration\nresources:\n"
SECRET = "AAECAwQFBgcICQoLDA0ODw=="
KEY = f"{{name: key1, secret: {SECRET}}}"
JSON_HEAD = '{"apiVersion": "apiserver.config.k8s.io/v1", "kind": "EncryptionConfiguration", "resources": '
JSON_ENTRIES = '[{"resources": ["secrets"], "providers": [{"identity": {}}]}]'


def entry(*providers: str, resources: str = "[secrets]") -> str:
    """An entry in YAML, its providers each in lines of their own."""
    lines = "".join(f"  - {provider}\n" for provider in providers)
    return f"- resources: {resources}\n  providers:\n{lines}"


def keys(kind: str, *told: tuple[str, str]) -> str:
    """A cipher's element."""
    lines = "".join(f"\n      - name: {name}\n        secret: {secret}" for name, secret in told)
    return f"{kind}:\n      keys:{lines}"


def kms(**members: str) -> str:
    told = {"apiVersion": "v2", "name": "vault", "endpoint": "unix:///run/vault.sock", **members}
    return "kms:" + "".join(f"\n      {name}: {value}" for name, value in told.items() if value)


ONE = keys("aescbc", ("key1", SECRET))
IDENTITY = "identity: {}"
MANY = "".join(entry(IDENTITY, resources=f"[r{number}]") for number in range(65))

FILES = (
    # refused here, accepted there
    ("json-form", JSON_HEAD + JSON_ENTRIES + ', "metadata": "\ud800"}'),
    ("json-form", JSON_HEAD + JSON_ENTRIES + ', "metadata": ' + "[" * 130 + "]" * 130 + "}"),
    ("yaml-form", HEAD + entry(f"aescbc: {{keys: [{KEY}]}}")),
    ("yaml-form", HEAD + entry("identity: &a {}", "aescbc:\n      keys:\n      - name: >-\n          key1\n        secret: " + SECRET)),
    ("yaml-form", "\ufeff" + HEAD + entry(IDENTITY)),
    ("yaml-twice", HEAD + entry(IDENTITY) + "kind: EncryptionConfiguration\n"),
    ("yaml-form", HEAD + entry(IDENTITY) + "---\n" + HEAD + entry(ONE)),
    ("yaml-indent", HEAD + entry(keys("aescbc", ("key1\n          more", SECRET)))),
    ("yaml-indent", HEAD.replace("kind: ", "kind:\t") + entry(IDENTITY)),
    ("yaml-deep", HEAD + entry(IDENTITY) + "".join(f"{' ' * depth}a:\n" for depth in range(20))),
    ("yaml-form", HEAD + entry(IDENTITY, resources="[c, \t]")),
    ("yaml-form", "# a comment\n" + JSON_HEAD + JSON_ENTRIES + "}"),
    ("secretbox", HEAD + entry(keys("secretbox", ("key1", "ICEiIyQlJicoKSorLC0uLzAxMjM0NTY3ODk6Ozw9Pj8=")), IDENTITY)),
    ("kms-version", HEAD + entry(kms(apiVersion=""), IDENTITY)),
    ("kms-version", HEAD + entry(kms(apiVersion="v1"), IDENTITY)),
    ("kms-version", HEAD + entry(kms(apiVersion="v3"), IDENTITY)),
    ("kms-version", HEAD + entry(kms(apiVersion="[]"), IDENTITY)),
    ("names", HEAD + entry(keys("aescbc", ("'a:b'", SECRET)))),
    ("names", HEAD + entry(keys("aesgcm", ("'a b'", SECRET)))),
    ("names", HEAD + entry(keys("aesgcm", ("\u00e9", SECRET)))),
    ("names", HEAD + entry(keys("aesgcm", ("x" * 254, SECRET)))),
    ("endpoint-form", HEAD + entry(kms(endpoint="unix:/run/vault.sock"), IDENTITY)),
    ("secret-form", HEAD + entry(keys("aescbc", ("key1", '"AAECAwQFBg\\ncICQoLDA0ODw=="')))),
    ("secret-form", HEAD + entry(keys("aescbc", ("key1", "AAECAwQFBgcICQoLDA0ODx==")))),
    ("pattern-form", HEAD + entry(ONE, resources="[Secrets]")),
    ("pattern-form", HEAD + entry(ONE, resources="[secrets/status]")),
    ("pattern-form", HEAD + entry(ONE, resources="['*']")),
    ("pattern-twice", HEAD + entry(ONE, resources="[secrets, secrets]")),
    ("pattern-overlap", HEAD + entry(ONE, resources="[deployments.apps, '*.apps']")),
    ("provider-twice", HEAD + entry(keys("aescbc", ("key1", SECRET), ("key1", "AQIDBAUGBwgJCgsMDQ4PEA==")))),
    ("provider-twice", HEAD + entry(IDENTITY, ONE, IDENTITY)),
    ("limits", HEAD + MANY),
    ("limits", HEAD + entry(IDENTITY) + "#" + "x" * 1_048_576 + "\n"),
    ("null-pattern", HEAD + entry(IDENTITY, resources="[secrets, null]")),
    ("null-element", HEAD + entry(IDENTITY + "\n    aescbc: null")),
    ("null-element", HEAD + entry(IDENTITY + "\n    kms:")),
    ("old-kind", "apiVersion: v1\nkind: EncryptionConfig\nresources:\n" + entry(IDENTITY)),
    ("blanks", HEAD.replace("kind:", "kind :") + entry(IDENTITY)),
    ("blanks", HEAD.replace("v1\n", "v1\t\n") + entry(IDENTITY)),
    # accepted here, refused there
    ("timeout", HEAD + entry(kms(timeout="-1s"), IDENTITY)),
    ("timeout", HEAD + entry(kms(timeout="soon"), IDENTITY)),
    ("cachesize", HEAD + entry(kms(cachesize="0"), IDENTITY)),
    ("endpoint-url", HEAD + entry(kms(endpoint="unix:///x%ck"), IDENTITY)),
    ("endpoint-url", HEAD + entry(kms(endpoint="'unix://a b'"), IDENTITY)),
    ("no-text", HEAD + entry(keys("aescbc", ("1", SECRET)))),
    ("no-text", HEAD + entry(keys("aescbc", ("true", SECRET)))),
    ("no-text", HEAD + entry(IDENTITY, resources="[2001]")),
    ("nothing", HEAD + entry("identity:", ONE)),
    ("nothing", HEAD + entry("identity: null")),
    ("nothing", HEAD + entry(keys("aescbc", ("NULL", SECRET)))),
    ("escaped-slash", HEAD + entry(keys("aescbc", ("key1", '"\\/\\/\\/\\/\\/\\/\\/\\/\\/\\/\\/\\/\\/\\/\\/\\/\\/\\/\\/\\/\\/w=="')))),
    ("lone-dash", HEAD + entry(keys("aescbc", ("-", SECRET)))),
    ("colon-tab", HEAD + entry(kms(endpoint="unix:///run/a:\t.sock"), IDENTITY)),
    ("colon-tab", HEAD + entry(IDENTITY) + "metadata: a:\tb\n"),
    # both accept, and read otherwise
    ("wildcards", HEAD + entry(ONE, resources="['*.*']")),
    ("wildcards", HEAD + entry(ONE, resources="['*.apps']")),
    ("two-entries", HEAD + entry(ONE) + entry(IDENTITY)),
    ("kms-as-v1", HEAD + entry(kms(), ONE, IDENTITY)),
    ("endpoint-tab", HEAD + entry(kms(endpoint="unix:///run/vault.sock\t"), IDENTITY)),
)
OWN = tuple((name, text.encode("utf-8", "surrogatepass")) for name, text in FILES)
