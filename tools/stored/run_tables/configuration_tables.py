"""Configurations in JSON: what `check` shows, which entry matches, and each breach with its numbers."""

import base64

from .form import SECRETS, Spelled, check_words, config, dumped, entries_of, provider, repeated, whole

API = '"apiVersion":"apiserver.config.k8s.io/v1"'
KIND = '"kind":"EncryptionConfiguration"'
IDENTITY = {"identity": {}}
GOOD = entries_of("a: identity | b: identity, aescbc:k=K16")


def check(book, name, content, resource=None):
    book.case(name, check_words(resource), (("c.json", content if isinstance(content, str) else dumped(content)),))


# ---- what is shown, and first matches


SHOWN = {
    "identity": "secrets: identity",
    "each_kind": "secrets: aescbc:a=K16, aesgcm:b=K24, kms:c, identity",
    "two_keys_in_one": "secrets: aescbc:a=K16+b=K32",
    "one_name_in_two_kinds": "secrets: aescbc:k=K16, aesgcm:k=K16, kms:k",
    "one_name_in_two_entries": "a: aescbc:k=K16 | b: aescbc:k=K32 | c: kms:p | d: kms:p",
    "one_pattern_in_two_entries": "secrets: identity | secrets: aescbc:k=K16",
    "all_patterns": "pods.apps,*.batch,*.: identity | *.*: aescbc:k=K16",
    "long_groups": "*.a.b.c,events.events.k8s.io,0-9.-: identity",
    "ten_entries": " | ".join(f"r{number}: identity" for number in range(11)),
    "names_of_any_bytes": "secrets: aescbc:!~\"\\/=K16",
    "name_of_253": "secrets: aesgcm:" + "n" * 253 + "=K16",
    "group_of_251": "*." + "g" * 251 + ": identity",
}

THREE = "secrets: identity | *.: aesgcm:k=S1 | *.*: aescbc:k=S2"
GROUPS = "*.apps: aescbc:a=K16 | pods.apps: identity | *.*: aesgcm:b=K16, identity"
MATCHED = (
    (THREE, "three", ("secrets", "configmaps", "deployments.apps", "secrets.apps", "a.b.c")),
    ("secrets,pods.apps: aescbc:key1=K16, identity", "two", ("secrets", "pods.apps", "pods", "apps", "secrets.pods.apps")),
    ("*.apps: kms:p", "kms", ("deployments.apps", "apps", "deployments.apps.x", "a.b.apps", "secrets")),
    (GROUPS, "masked", ("pods.apps", "x.apps", "pods", "pods.batch")),
    ("*.a.b: identity, aescbc:k=K16", "group_of_two", ("x.a.b", "x.a", "x.b", "a.b")),
    ("secrets: aescbc:a=K16 | secrets: aescbc:b=K16", "doubled", ("secrets",)),
)


def add_shown(book):
    for name, text in SHOWN.items():
        check(book, f"check_{name}", config(text))
    for text, name, resources in MATCHED:
        for resource in resources:
            check(book, f"match_{name}_{resource}", config(text), resource)
    check(book, "check_identity_null", whole([{"resources": ["a"], "providers": [{"identity": None}]}]))
    check(book, "check_ignored_members", {**whole([{**GOOD[0], "x": 1}]), "y": [True, None, 1.5], "metadata": {}})
    check(book, "check_ignored_in_provider", whole([{"resources": ["a"], "providers": [{"identity": {"x": 1}, "other": 2}]}]))
    element = {"kms": {**provider("kms:p")["kms"], "timeout": "3s", "cachesize": -1}}
    check(book, "check_ignored_in_kms", whole([{"resources": ["a"], "providers": [element]}]))
    book.case("check_members_in_any_order", check_words(), (("c.json", f'{{"resources":[{dumped(GOOD[0])}],{KIND},{API}}}'),))


# ---- the text itself


def doubled(text):
    return f'{{{API},{KIND},"resources":[],{text}}}'


ONE = dumped(GOOD[0])
TEXTS = {
    "brace": "{",
    "empty_object": "{}",
    "blanks_before": " \t\r\n" + config("a: identity"),
    "blanks_behind": config("a: identity") + "\r\n\t ",
    "comma_too_many": "{" + API + ",}",
    "two_values": "{} {}",
    "word_behind": "{}x",
    "single_quotes": "{'a':1}",
    "comment": "{} // x",
    "bare_key": "{a:1}",
    "colon_missing": '{"a" 1}',
    "not_a_number": '{"a":NaN}',
    "infinity": '{"a":-Infinity}',
    "number_leading_zero": '{"a":01}',
    "number_plus": '{"a":+1}',
    "number_dot": '{"a":1.}',
    "number_dot_first": '{"a":.5}',
    "number_too_large": '{"a":1e999}',
    "number_small": '{"a":1e-999}',
    "number_of_400_digits": '{"a":' + "9" * 400 + "}",
    "number_of_300_digits": '{"a":' + "9" * 300 + "}",
    "number_of_20_digits": '{"a":-18446744073709551617}',
    "control_in_text": '{"a":"\x01"}',
    "tab_in_text": '{"a":"\t"}',
    "open_text": '{"a":"b}',
    "escape_unknown": '{"a":"\\x"}',
    "escape_short": '{"a":"\\u12"}',
    "surrogate_alone": '{"a":"\\ud800"}',
    "surrogate_low_alone": '{"\\udc00":1}',
    "surrogates": '{"a":"\\ud83d\\ude00"}',
    "levels_127": '{"a":' + "[" * 126 + "]" * 126 + "}",
    "levels_128": '{"a":' + "[" * 127 + "]" * 127 + "}",
    "levels_in_a_text": '{"a":"' + "[" * 200 + '"}',
    "list_first": "[{}]",
    "last_resources_count": doubled(f'"resources":[{ONE}]'),
    "last_kind_counts": doubled('"kind":"x"'),
    "escaped_names": '{"\\u0061piVersion":"apiserver.config.k8s.io\\/v1",' + KIND + f',"resources":[{ONE}]}}',
}


def add_texts(book):
    for name, text in TEXTS.items():
        check(book, f"json_{name}", text)
    for name, data in (("in_text", b'{"a":"\xff"}'), ("behind", b"{}\x80"), ("surrogate", b'{"a":"\xed\xa0\x80"}'), ("overlong", b'{"a":"\xc0\x80"}')):
        check(book, f"json_not_utf8_{name}", Spelled(f"\\({data.hex()})"))
    check(book, "json_mark_before", Spelled("\\(efbbbf)") + config("a: identity"))


# ---- breaches


def top(changes, without=()):
    tree = {**whole(GOOD), **changes}
    return {name: value for name, value in tree.items() if name not in without}


def at_entry(entry):
    """The entry as the second of the file."""
    return whole([GOOD[0], entry])


def at_pattern(pattern):
    """The pattern as the third of the second entry."""
    return at_entry({"resources": ["p", "q.g", pattern], "providers": [IDENTITY]})


def at_provider(element):
    """The provider as the third of the second entry."""
    return at_entry({"resources": ["p"], "providers": [IDENTITY, provider("aescbc:k=K16"), element]})


def key(**changes):
    return at_provider({"aesgcm": {"keys": [{"name": "x", "secret": SECRETS["K24"]}, {"name": "n", "secret": SECRETS["K32"], **changes}]}})


def key_without(name):
    return at_provider({"aesgcm": {"keys": [{other: "x" for other in ("name", "secret") if other != name}]}})


def plugin(without=(), **changes):
    element = {"apiVersion": "v2", "name": "p", "endpoint": "unix:///run/p", **changes}
    return at_provider({"kms": {name: value for name, value in element.items() if name not in without}})


def secret_of(size):
    return base64.b64encode(bytes(range(size))).decode()


BREACHES = {
    "23_missing": top({}, ("apiVersion",)),
    "23_other": top({"apiVersion": "apiserver.config.k8s.io/v2"}),
    "23_number": top({"apiVersion": 1}),
    "23_null": top({"apiVersion": None}),
    "23_before_24": top({"apiVersion": "v1", "kind": "EncryptionConfig"}),
    "24_missing": top({}, ("kind",)),
    "24_other": top({"kind": "EncryptionConfig"}),
    "24_list": top({"kind": ["EncryptionConfiguration"]}),
    "24_before_22": top({"kind": "x", "resources": 1}),
    "22_resources_missing": top({}, ("resources",)),
    "22_resources_mapping": top({"resources": {}}),
    "22_resources_null": top({"resources": None}),
    "22_resources_text": top({"resources": "secrets"}),
    "25_resources": top({"resources": []}),
    "22_entry_null": at_entry(None),
    "22_entry_list": at_entry([]),
    "22_entry_text": at_entry("secrets"),
    "22_patterns_missing": at_entry({"providers": [IDENTITY]}),
    "22_patterns_text": at_entry({"resources": "secrets", "providers": [IDENTITY]}),
    "25_patterns": at_entry({"resources": [], "providers": [IDENTITY]}),
    "22_providers_missing": at_entry({"resources": ["p"]}),
    "22_providers_mapping": at_entry({"resources": ["p"], "providers": IDENTITY}),
    "25_providers": at_entry({"resources": ["p"], "providers": []}),
    "22_patterns_before_providers": at_entry({"resources": [1], "providers": 1}),
    "22_pattern_number": at_pattern(1),
    "22_pattern_null": at_pattern(None),
    "22_pattern_list": at_pattern(["secrets"]),
    "35_empty": at_pattern(""),
    "35_star": at_pattern("*"),
    "35_stars": at_pattern("**"),
    "35_star_behind": at_pattern("pods.*"),
    "35_star_in_group": at_pattern("*.a.*"),
    "35_capital": at_pattern("Secrets"),
    "35_dot_behind": at_pattern("secrets."),
    "35_dots": at_pattern("*.a..b"),
    "35_dot_first": at_pattern(".a"),
    "35_space": at_pattern("a b"),
    "35_slash": at_pattern("pods/log"),
    "35_accent": at_pattern("caf\u00e9"),
    "35_of_254": at_pattern("a" * 254),
    "35_group_of_254": at_pattern("*." + "g" * 252),
    "36_same": at_pattern("q.g"),
    "36_before_37": at_entry({"resources": ["*.g", "*.g"], "providers": [IDENTITY]}),
    "36_all": at_entry({"resources": ["*.*", "*.*"], "providers": [IDENTITY]}),
    "37_group_behind": at_pattern("*.g"),
    "37_core_group_behind": at_pattern("*."),
    "37_all_behind": at_pattern("*.*"),
    "37_exact_behind_group": at_entry({"resources": ["x", "*.g", "q.g"], "providers": [IDENTITY]}),
    "37_exact_behind_core": at_entry({"resources": ["*.", "x.g", "x"], "providers": [IDENTITY]}),
    "37_exact_behind_all": whole(entries_of("*.*,secrets: identity")),
    "37_group_behind_all": whole(entries_of("*.*,*.g: identity")),
    "37_long_group": at_entry({"resources": ["x.a.b", "*.b", "*.a", "*.a.b"], "providers": [IDENTITY]}),
    "22_element_null": at_provider(None),
    "22_element_text": at_provider("identity"),
    "26_empty": at_provider({}),
    "26_other": at_provider({"aesctr": {}}),
    "27_two": at_provider({"identity": {}, "aescbc": {}}),
    "27_two_of_null": at_provider({"kms": None, "secretbox": None}),
    "28": at_provider({"secretbox": {"keys": []}}),
    "28_null": at_provider({"secretbox": None}),
    "22_identity_list": at_provider({"identity": []}),
    "22_identity_text": at_provider({"identity": "x"}),
    "38_identity": at_provider({"identity": {}}),
    "22_aescbc_null": at_provider({"aescbc": None}),
    "22_aesgcm_list": at_provider({"aesgcm": []}),
    "22_keys_missing": at_provider({"aesgcm": {}}),
    "22_keys_mapping": at_provider({"aescbc": {"keys": {}}}),
    "25_keys": at_provider({"aesgcm": {"keys": []}}),
    "22_key_null": at_provider({"aescbc": {"keys": [None]}}),
    "22_name_missing": key_without("name"),
    "22_name_number": key(name=1),
    "22_secret_missing": key_without("secret"),
    "22_secret_null": key(secret=None),
    "31_empty": key(name=""),
    "31_colon": key(name="a:b"),
    "31_space": key(name="a b"),
    "31_accent": key(name="\u00e9"),
    "31_delete": key(name="\x7f"),
    "31_of_254": key(name="n" * 254),
    "31_before_22_secret": key(name="", secret=1),
    "33_letters": key(secret="AAECAwQFBgcICQoLDA0OD-=="),
    "33_without_padding": key(secret=SECRETS["K16"][:-2]),
    "33_padding_too_long": key(secret=SECRETS["K16"] + "=="),
    "33_space": key(secret=SECRETS["K16"] + " "),
    "33_lf": key(secret=SECRETS["K16"][:8] + "\n" + SECRETS["K16"][8:]),
    "33_bits_left": key(secret=SECRETS["K16"][:-3] + "x=="),
    "33_padding_first": key(secret="=="),
    "33_of_one_letter": key(secret="A"),
    "33_before_34": key(secret="AB=="),
    "34_empty": key(secret=""),
    "34_15": key(secret=secret_of(15)),
    "34_17": key(secret=secret_of(17)),
    "34_33": key(secret=secret_of(33)),
    "34_48": key(secret=secret_of(48)),
    "34_before_38": key(name="x", secret=secret_of(8)),
    "38_key": key(name="x"),
    "38_key_of_another_element": at_provider(provider("aescbc:k=K32")),
    "22_kms_null": at_provider({"kms": None}),
    "29_missing": plugin(("apiVersion",)),
    "29_v1": plugin(apiVersion="v1"),
    "29_before_name": plugin(("apiVersion", "name")),
    "22_kms_version_null": plugin(apiVersion=None),
    "22_kms_version_number": plugin(apiVersion=2),
    "30": plugin(apiVersion="v3"),
    "30_capital": plugin(apiVersion="V1"),
    "30_empty": plugin(apiVersion=""),
    "30_before_name": plugin(("name",), apiVersion="v3"),
    "22_kms_name_missing": plugin(("name",)),
    "31_kms_empty": plugin(name=""),
    "31_kms_colon": plugin(name="p:q"),
    "31_before_22_endpoint": plugin(("endpoint",), name=""),
    "22_endpoint_missing": plugin(("endpoint",)),
    "22_endpoint_list": plugin(endpoint=[]),
    "32_empty": plugin(endpoint=""),
    "32_tcp": plugin(endpoint="tcp://x"),
    "32_capital": plugin(endpoint="UNIX:///x"),
    "32_two_slashes_cut": plugin(endpoint="unix:/"),
    "32_before_38": at_entry({"resources": ["p"], "providers": [provider("kms:p"), {"kms": {"apiVersion": "v2", "name": "p", "endpoint": "x"}}]}),
    "38_key_of_a_third_element": whole(entries_of("a: aescbc:k=K16, aesgcm:k=K16, aescbc:k=K24")),
    "38_kms": at_entry({"resources": ["p"], "providers": [provider("kms:p"), IDENTITY, provider("kms:p")]}),
    "pattern_before_provider": at_entry({"resources": ["p", "P"], "providers": [{}]}),
    "first_entry_first": whole([{"resources": ["a"], "providers": [{}]}, None]),
    "first_provider_first": at_entry({"resources": ["p"], "providers": [{}, None]}),
}


def numbered(names, text):
    return [text.format(name) for name in names]


def keys(count):
    return ", ".join(numbered(range(count), "aescbc:k{}=K16"))


LIMITS = {
    "entries_64": " | ".join(numbered(range(64), "r{}: identity")),
    "entries_65": " | ".join(numbered(range(65), "r{}: identity")),
    "patterns_256": ",".join(numbered(range(256), "r{}")) + ": identity",
    "patterns_257": ",".join(numbered(range(257), "r{}")) + ": identity",
    "patterns_257_in_two": ",".join(numbered(range(200), "r{}")) + ": identity | " + ",".join(numbered(range(57), "r{}")) + ": identity",
    "keys_64": f"a: {keys(64)}",
    "keys_65": f"a: {keys(65)}",
    "keys_65_in_two_kinds": f"a: {keys(60)} | b: " + ", ".join(numbered(range(5), "aesgcm:k{}=K16")),
    "kms_16": "a: " + ", ".join(numbered(range(16), "kms:p{}")),
    "kms_17": "a: " + ", ".join(numbered(range(17), "kms:p{}")),
    "kms_17_of_one_name": " | ".join(numbered(range(17), "r{}: kms:p")),
}


def add_limits(book):
    for name, text in LIMITS.items():
        check(book, f"limit_{name}", config(text))
    # what is wrong beside the limit, before and behind it
    many = entries_of(LIMITS["entries_65"])
    check(book, "limit_entries_before_an_entry", whole([None, *many]))
    check(book, "limit_entries_behind_kind", {**whole(many), "kind": "x"})
    patterns = [f"r{number}" for number in range(256)]
    check(book, "limit_patterns_behind_35", whole([{"resources": [*patterns, "R"], "providers": [IDENTITY]}]))
    check(book, "limit_patterns_behind_36", whole([{"resources": [*patterns, "r0"], "providers": [IDENTITY]}]))
    check(book, "limit_patterns_before_providers", whole([{"resources": [*patterns, "x"], "providers": 1}]))
    elements = [provider(it) for it in keys(64).split(", ")]
    check(book, "limit_keys_behind_38", whole([{"resources": ["a"], "providers": [*elements, provider("aescbc:k0=K16")]}]))
    check(book, "limit_keys_before_the_next", whole([{"resources": ["a"], "providers": [*elements, provider("aesgcm:k0=K16"), None]}]))
    space = config("a: identity")
    check(book, "limit_config_1048576", Spelled(repeated(1_048_576 - len(space), b" ") + space))
    check(book, "limit_config_1048577", Spelled(repeated(1_048_577 - len(space), b" ") + space))
    check(book, "limit_config_of_lines", repeated(100_000, b"\n"))


def add_all(book):
    book.title("what check shows, and the entry that matches")
    add_shown(book)
    book.title("texts in JSON")
    add_texts(book)
    book.title("breaches of a configuration, by their codes; most stand at place 2 of entry 1")
    for name, tree in BREACHES.items():
        check(book, f"breach_{name}", tree)
    book.title("limits of a configuration, at and one above")
    add_limits(book)
