"""Configurations in YAML: the profile's breaches by line and kind, its forms, and the walk's breaches over its trees."""

from .form import Spelled, check_words, object_words

HEAD = "apiVersion: apiserver.config.k8s.io/v1\nkind: EncryptionConfiguration\n"
EXAMPLE = (
    "---\n# an example\n"
    + HEAD
    + """resources:
  - resources:
      - secrets
      - configmaps # core group
    providers:
      - aescbc:
          keys:
            - name: key1
              secret: c2VjcmV0IGlzIHNlY3VyZQ==
            - name: key2
              secret: dGhpcyBpcyBwYXNzd29yZA==
      - identity: {} # last
  - resources:
      - '*.apps'
    providers:
      - aesgcm:
          keys:
            - name: key1
              secret: c2VjcmV0IGlzIHNlY3VyZQ==
      - identity: {}
  - resources:
      - '*.*'
    providers:
      - identity: {}
"""
)
ENTRY = "resources:\n- resources: [secrets]\n  providers:\n  - identity: {}\n"
PLAIN = HEAD + ENTRY


def spliced(piece, line=3):
    """The example with a piece as its line of this number."""
    lines = EXAMPLE.split("\n")
    return "\n".join(lines[: line - 1] + [piece] + lines[line - 1 :])


# texts, and what they show is said by tools/stored/stored run_answers
TEXTS = {
    "example": EXAMPLE,
    "plain": PLAIN,
    "without_marker": EXAMPLE[4:],
    "no_lf_at_the_end": PLAIN[:-1],
    "crlf": PLAIN.replace("\n", "\r\n"),
    "blank_lines": PLAIN.replace("\n", "\n\n  \n"),
    "comments": "# a\n" + PLAIN.replace("\n", " # b\n") + "# c",
    "quoted": PLAIN.replace("apiserver.config.k8s.io/v1", '"apiserver.config.k8s.io\\/v1"').replace("secrets", "'secrets'"),
    "quoted_keys": PLAIN.replace("kind:", "'kind':").replace("  providers:", '  "providers":'),
    "numbers_and_truth_values_are_texts": PLAIN.replace("[secrets]", "[1.5, 2, -3.x, true, no]"),
    "identity_null": PLAIN.replace("identity: {}", "identity:"),
    "identity_tilde": PLAIN.replace("identity: {}", "identity: ~"),
    "list_deeper": HEAD + "resources:\n    -   resources:\n        -   secrets\n        providers:\n        -   identity: {}\n",
    "list_under_its_key": HEAD + "resources:\n- providers:\n  - identity: {}\n  resources:\n  - secrets\n  - '*.apps'\n",
    "flow_patterns": PLAIN.replace("[secrets]", '[ secrets, \'*.apps\' ,"pods.batch" ]'),
    "members_in_any_order": ENTRY + HEAD,
    "item_alone": HEAD + "resources:\n-\n  resources:\n  -\n    secrets\n  providers:\n  - identity: {}\n",
    "dash_dash": HEAD + "resources:\n- resources: [secrets]\n  providers:\n  - - identity\n",
    "empty": "",
    "blank": "\n \n# a\n",
    "marker_alone": "---\n",
    "null": "~\n",
    "word": "a\n",
    "list": "- a\n- b\n",
    "flow_list": "[a, b]\n",
    "number": "1\n",
    "same_key": "kind: a\nkind: b\n",
    "same_key_quoted": "kind: a\n'kind': b\n",
    "same_key_apart": "a:\n  b: 1\nb: 2\na: 3\n",
    "indent_member": "kind: a\n  b: c\n",
    "indent_scalar": "a\nb\n",
    "indent_item": "a: b\n- c\n",
    "indent_less": "a:\n    b: c\n  d: e\n",
    "indent_first": "  a: b\nc: d\n",
    "levels_16": "a:\n" + " " + "- " * 15 + "b\n",
    "levels_17": "a:\n" + " " + "- " * 16 + "b\n",
    "levels_16_items": "- " * 16 + "a",
    "levels_17_items_on_line_2": "\n" + "- " * 17 + "a",
    "levels_17_flow": "- " * 16 + "[a]\n",
    "levels_17_mapping": "- " * 16 + "a: b\n",
    "outside_before_indent": "a\nb\n\tc\n",
    "outside_before_double": "a: 1\na: 2\n'\n",
    "double_before_indent": "a: 1\na: 2\n b: 3\n",
    "indent_before_double": "a: 1\n b: 3\na: 2\n",
    "tab": "\ta: b\n",
    "tab_behind_spaces": "a:\n  \tb: c\n",
    "tab_within": "a:\tb\n",
    "second_marker": "---\n---\n",
    "marker_later": "a: b\n---\n",
    "dots_later": "a: b\n...\n",
    "anchor": "a: &b c\n",
    "alias": "a: *b\n",
    "tag": "a: !!str b\n",
    "literal": "a: |\n  b\n",
    "folded": "a: >\n  b\n",
    "question": "? a\n",
    "open_single": "a: 'b\n",
    "open_double": 'a: "b\n',
    "escape": 'a: "\\x41"\n',
    "behind_a_quote": "a: 'b' c\n",
    "flow_mapping": "a: {b: c}\n",
    "flow_nested": "a: [[b]]\n",
    "flow_comma_last": "a: [b,]\n",
    "flow_open": "a: [b\n",
    "flow_blank": "a: [ ]\n",
    "colon_twice": "a: b: c\n",
    "colon_last": "a::\n",
    "percent": "%YAML 1.2\n",
    "at_sign": "a: @b\n",
    "backtick": "a: `b`\n",
}

SPLICED = {
    "example_tab": "\t",
    "example_indent": "kind: a\n  b: c",
    "example_double": "apiVersion: v1",
    "example_deep": "a:\n - - - - - - - - - - - - - - - -",
    "example_comment": "   # kind: a",
    "example_quote_in_a_comment": "# it's",
    "example_member": "metadata: {}",
    "example_null_member": "null: ~",
}

# what the API server's library reads otherwise; the last four are read alike
READ_OTHERWISE = {
    "cr_in_a_comment": PLAIN.replace("  providers:\n", "  providers: # x\r"),
    "cr_within": "a: b\rc\n",
    "two_crs": "a: b\r\r\n",
    "cr_at_the_end": PLAIN.replace("\n", "\r\n").removesuffix("\n"),
    "cr_alone_at_the_end": "a: b\n# x\r",
    "next_line": PLAIN.replace("  providers:\n", "  providers: # x\u0085\n"),
    "line_separator": PLAIN.replace("{}\n", "{} # \u2028\n"),
    "paragraph_separator": "# \u2029\n",
    "byte_order_mark": "\ufeff" + PLAIN,
    "byte_order_mark_within": "a: \ufeffb\n",
    "control": "a: b # \x07\n",
    "delete": "a: b\x7f\n",
    "no_character": "a: \ufffe\n",
    "merge": PLAIN + "  <<: {}\n",
    "merge_blank": PLAIN + "<< :\n  kind: a\n",
    "merge_in_an_item": "- <<: a\n",
    "marker_and_more": PLAIN + "--- a\n",
    "marker_and_more_first": "--- a: b\n",
    "marker_and_tab": "---\ta\n",
    "dots_and_more": PLAIN + "... a\n",
    "marker_and_comment": PLAIN.replace(HEAD, "--- # x\n" + HEAD),
    "merge_quoted": PLAIN + "'<<': a\n",
    "marker_indented": "a:\n  --- b\n",
    "characters_at_the_edges": "a: \u00a0\u2027\u202a\ud7ff\ue000\ufefe\uff00\ufffd\U00010000\U0010ffff\n",
}

# the same walk as over JSON
WALKED = {
    "22_whole_text": "a\n",
    "23_missing": "kind: EncryptionConfiguration\n",
    "23_null": "apiVersion: null\n",
    "23_quoted_null": "apiVersion: 'null'\n",
    "24": "apiVersion: apiserver.config.k8s.io/v1\nkind: encryptionConfiguration\n",
    "22_resources_text": HEAD + "resources: secrets\n",
    "25_resources": HEAD + "resources: []\n",
    "22_entry_null": PLAIN + "-\n",
    "22_pattern_null": PLAIN.replace("[secrets]", "[a, null]"),
    "35": PLAIN.replace("[secrets]", "[a, 'A']"),
    "36": PLAIN.replace("[secrets]", "[a, 'a']"),
    "37": PLAIN.replace("[secrets]", "['*.', a]"),
    "22_identity_text": PLAIN.replace("{}", "''"),
    "22_identity_list": PLAIN.replace("{}", "[]"),
    "26": PLAIN.replace("identity", "Identity"),
    "27": PLAIN.replace("identity: {}", "identity: {}\n    aescbc: {}"),
    "28": PLAIN.replace("identity: {}", "secretbox:"),
    "29": PLAIN.replace("identity: {}", "kms:\n      name: p"),
    "22_kms_version_null": PLAIN.replace("identity: {}", "kms:\n      apiVersion:"),
    "30": PLAIN.replace("identity: {}", "kms:\n      apiVersion: v3"),
    "32": PLAIN.replace("identity: {}", "kms:\n      apiVersion: v2\n      name: p\n      endpoint: tcp"),
    "kms": PLAIN.replace("identity: {}", "kms:\n      apiVersion: v2\n      name: p\n      endpoint: unix:///x\n      timeout: 3s"),
    "34": PLAIN.replace("identity: {}", "aescbc:\n      keys:\n      - name: k\n        secret: AAAA"),
    "38": PLAIN + "  - identity:\n",
}


def check(book, name, content, resource=None):
    book.case(name, check_words(resource), (("c.json", content),))


def add_all(book):
    book.title("configurations in YAML")
    for name, text in TEXTS.items():
        check(book, f"yaml_{name}", text)
    for name, text in READ_OTHERWISE.items():
        check(book, f"yaml_otherwise_{name}", text)
    for name, piece in SPLICED.items():
        check(book, f"yaml_{name}", spliced(piece))
    for resource in ("secrets", "configmaps", "deployments.apps", "events.events.k8s.io"):
        check(book, f"yaml_example_match_{resource}", EXAMPLE, resource)
    for name, data in (("first", b"\xff"), ("in_comment", b"a: b # \xc3\n"), ("behind_a_breach", b"\t\xff")):
        check(book, f"yaml_not_utf8_{name}", Spelled(f"\\({data.hex()})"))
    check(book, "yaml_deep_of_many", Spelled("\\(100000*2d20)") + "a\n")
    book.title("breaches of a configuration in YAML")
    for name, text in WALKED.items():
        check(book, f"yaml_breach_{name}", text)
    book.title("an example in YAML, there and back")
    sealed = bytes(range(16))
    book.case("yaml_encrypts", object_words("encrypt"), (("c.json", EXAMPLE),), b"hello", ((0, sealed),))
    book.case("yaml_encrypts_by_gcm", object_words("encrypt", "deployments.apps"), (("c.json", EXAMPLE),), b"hello", ((0, sealed),))
    book.case("yaml_encrypts_bare", object_words("encrypt", "events.events.k8s.io"), (("c.json", EXAMPLE),), b"hello", ((0, b""),))
