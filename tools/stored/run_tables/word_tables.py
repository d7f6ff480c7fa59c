"""Command lines."""

from reference.words import OPTIONS

from .form import PATH, config, object_words

FILES = (("c.json", config("secrets: identity")),)
DICE = ((0, b""),)
NAME_253 = "n" * 253



# on these lines `encrypt` or `decrypt` has a file to read
OBJECT = {
    "one_word_each": ["encrypt", "--config=c.json", "--resource=secrets", f"--path={PATH}"],
    "any_order": ["encrypt", "--path", PATH, "--resource", "secrets", "--config", "c.json"],
    "empty_path": object_words("encrypt", path=""),
    "empty_path_one_word": ["encrypt", "--config", "c.json", "--resource", "secrets", "--path="],
    "empty_path_decrypt": object_words("decrypt", path=""),
    "value_begins_with_dashes": ["encrypt", "--config", "--path", "--resource", "secrets", "--path", "--resource"],
    "value_has_equals": ["encrypt", "--config=a=b", "--resource", "secrets", "--path", "a=b"],
    "value_is_dashes": object_words("encrypt", path="--"),
    "path_of_1024": object_words("encrypt", path="/" * 1024),
    "path_of_1025": object_words("encrypt", path="/" * 1025),
    "path_with_space": object_words("encrypt", path="a b"),
    "path_least_byte": object_words("encrypt", path="!~"),
    "path_with_delete": object_words("encrypt", path="a\x7f"),
    "path_with_accent": object_words("encrypt", path="/\u00e9"),
    "path_with_lf": object_words("encrypt", path="a\n"),
    "resource_of_group": object_words("encrypt", resource="deployments.apps"),
    "resource_of_long_group": object_words("encrypt", resource="events.events.k8s.io"),
    "resource_digits": object_words("encrypt", resource="0-9.-"),
    "resource_of_253": object_words("encrypt", resource="a" * 253),
    "resource_of_254": object_words("encrypt", resource="a" * 254),
    "resource_group_of_253": object_words("encrypt", resource="a." + "b" * 251),
    "resource_group_of_254": object_words("encrypt", resource="a." + "b" * 252),
    "resource_empty": object_words("encrypt", resource=""),
    "resource_capital": object_words("encrypt", resource="Secrets"),
    "resource_dot_at_end": object_words("encrypt", resource="secrets."),
    "resource_dot_at_begin": object_words("encrypt", resource=".apps"),
    "resource_two_dots": object_words("encrypt", resource="a..b"),
    "resource_star": object_words("encrypt", resource="*.apps"),
    "resource_underscore": object_words("encrypt", resource="a_b"),
    "resource_slash": object_words("decrypt", resource="a/b"),
    "config_twice": object_words("encrypt") + ["--config", "c.json"],
    "path_twice_two_forms": object_words("encrypt") + ["--path=/x"],
    "path_missing": ["encrypt", "--config", "c.json", "--resource", "secrets"],
    "config_missing": ["decrypt", "--resource", "secrets", "--path", PATH],
    "resource_missing": ["decrypt", "--config", "c.json", "--path", PATH],
    "value_missing": ["encrypt", "--config", "c.json", "--resource", "secrets", "--path"],
    "option_of_another": object_words("encrypt") + ["--store", "s"],
    "dashes_alone": object_words("encrypt") + ["--"],
    "dashes_and_value": object_words("encrypt") + ["--", "x"],
    "equals_alone": object_words("encrypt") + ["--=x"],
    "one_dash": ["encrypt", "-config", "c.json", "--resource", "secrets", "--path", PATH],
    "word_behind": object_words("encrypt") + ["x"],
    "word_between": ["encrypt", "x"] + object_words("encrypt")[1:],
    "empty_word_behind": object_words("encrypt") + [""],
    "option_in_capitals": ["encrypt", "--Config", "c.json", "--resource", "secrets", "--path", PATH],
    "plugin": object_words("encrypt") + ["--plugin", "p=prog"],
    "plugins": object_words("decrypt") + ["--plugin", "p=prog", "--plugin=q=prog"],
    "plugin_program_with_equals": object_words("encrypt") + ["--plugin", "p=a=b"],
    "plugin_name_of_253": object_words("encrypt") + ["--plugin", NAME_253 + "=x"],
    "plugin_name_of_254": object_words("encrypt") + ["--plugin", NAME_253 + "n=x"],
    "plugin_without_program": object_words("encrypt") + ["--plugin", "p="],
    "plugin_without_equals": object_words("encrypt") + ["--plugin", "p"],
    "plugin_without_name": object_words("encrypt") + ["--plugin", "=x"],
    "plugin_name_with_colon": object_words("encrypt") + ["--plugin", "a:b=x"],
    "plugin_name_with_space": object_words("encrypt") + ["--plugin", "a b=x"],
    "plugin_twice": object_words("encrypt") + ["--plugin", "p=a", "--plugin", "p=b"],
    "plugin_twice_apart": object_words("encrypt") + ["--plugin", "p=a", "--plugin", "q=a", "--plugin=p=a"],
}

OTHERS = {
    "none": [],
    "one_empty": [""],
    "unknown": ["seal"],
    "capital": ["Encrypt"],
    "help": ["--help"],
    "help_behind": ["check", "--help"],
    "option_first": ["--config", "c.json", "check"],
    "check_no_options": ["check"],
    "check_path": ["check", "--config", "c.json", "--path", "/"],
    "check_plugin": ["check", "--config", "c.json", "--plugin", "p=q"],
    "check_resource_empty": ["check", "--config", "c.json", "--resource="],
    "check_resource_twice": ["check", "--resource", "a", "--config", "c.json", "--resource", "a"],
    "check_value_is_an_option": ["check", "--config", "--resource"],
    "check_word_behind": ["check", "--config", "c", "d"],
    "check_one_dash": ["check", "-config", "c"],
    "check_capital": ["Check", "--config", "c"],
    "check_option_in_capitals": ["check", "--Config", "c"],
    "check_option_unknown": ["check", "--config", "c", "--color", "red"],
    "check_resource_capital": ["check", "--config", "c", "--resource", "Secrets"],
    "inspect_option": ["inspect", "--config", "c.json"],
    "inspect_word": ["inspect", "x"],
    "inspect_empty_word": ["inspect", ""],
    "encrypt_alone": ["encrypt"],
    "decrypt_alone": ["decrypt"],
    # other commands
    "list": ["list", "--store", "s"],
    "get": ["get", "--config", "c.json", "--store", "s", "--path", "/"],
    "put": ["put", "--config", "c.json", "--store", "s", "--resource", "secrets", "--path", "/"],
    "put_path_empty": ["put", "--config=c.json", "--store=s", "--resource=secrets", "--path="],
    "get_path_with_space": ["get", "--config", "c.json", "--store", "s", "--path", "a b"],
    "rewrite_plugin_without_program": ["rewrite", "--store", "s", "--config", "c.json", "--plugin", "k="],
    "rewrite_plugin_without_name": ["rewrite", "--store", "s", "--config", "c.json", "--plugin", "=a"],
    "rewrite_plugin_without_equals": ["rewrite", "--store", "s", "--config", "c.json", "--plugin", "k"],
    "rewrite": ["rewrite", "--config", "c.json", "--store", "s"],
    "fleet": ["fleet", "--file", "f", "--store", "s"],
    "gen": ["gen", "--seed", "0", "--size", "1", "--store", "s"],
    "gen_size_10001": ["gen", "--seed", "0", "--size", "10001", "--store", "s"],
    "gen_size_of_70_digits": ["gen", "--seed", "0", "--size", "1" + "0" * 69, "--store", "s"],
    "gen_size_0": ["gen", "--seed", "0", "--size", "0", "--store", "s"],
    "gen_size_empty": ["gen", "--seed", "1", "--store", "s", "--size", ""],
    "gen_size_plus_1": ["gen", "--seed", "1", "--size", "+1", "--store", "s"],
    "gen_size_leading_zero": ["gen", "--seed", "0", "--size", "010001", "--store", "s"],
    "gen_size_sign": ["gen", "--seed", "0", "--size", "+10001", "--store", "s"],
    "gen_seed_above": ["gen", "--seed", "18446744073709551616", "--size", "10001", "--store", "s"],
    "gen_seed_empty": ["gen", "--seed=", "--size", "10001", "--store", "s"],
    "gen_seed_leading_zero": ["gen", "--seed", "00", "--size", "10001", "--store", "s"],
    "judge_16": ["judge", "--store", "s", "--reload", "0=f"] + ["--replica", "f"] * 16,
    "judge_17": ["judge", "--store", "s", "--reload", "0=f"] + ["--replica", "f"] * 17,
    "judge_17_reload_of_the_last": ["judge", "--store", "s", "--reload", "16=f"] + ["--replica", "f"] * 17,
    "judge_17_reload_above": ["judge", "--store", "s", "--reload", "17=f"] + ["--replica", "f"] * 17,
    "judge_17_reload_without_file": ["judge", "--store", "s", "--reload", "0="] + ["--replica", "f"] * 17,
    "judge_17_reload_without_equals": ["judge", "--store", "s", "--reload", "0"] + ["--replica", "f"] * 17,
    "judge_17_reload_leading_zero": ["judge", "--store", "s", "--reload", "00=f"] + ["--replica", "f"] * 17,
    "judge_17_no_reload": ["judge", "--store", "s"] + ["--replica", "f"] * 17,
    "judge_reload_leading_zero": ["judge", "--store", "s", "--reload", "00=f", "--replica", "r"],
    "judge_reload_of_20_digits": ["judge", "--store", "s", "--reload", "99999999999999999999=f", "--replica", "r"],
    "judge_no_replica": ["judge", "--store", "s", "--reload", "0=f"],
}

# a value of each option; each command is asked for with each option that is none of its own
VALUES = {
    **{"config": "c.json", "resource": "secrets", "path": "/", "store": "s", "to": "t", "replica": "r", "reload": "0=f"},
    **{"file": "f", "seed": "1", "size": "1", "plugin": "p=prog", "from": "c.json", "replicas": "2", "show": "wide"},
    **{"limit": "1", "since": "0"},
}
for verb, (required, further) in OPTIONS.items():
    own = [word for name in required for word in (f"--{name}", VALUES[name])]
    for name in sorted(VALUES.keys() - {*required, *further}):
        OTHERS[f"{verb}_with_{name}"] = [verb, *own, f"--{name}", VALUES[name]]

# files by names that are looked up
NAMES = {
    "absent": "no.yaml",
    "absent_foreign": "n\u00e9.yaml",
    "absent_empty": "",
    "absent_dash": "-",
    "absent_equals": "a=b",
    "absent_space": "a b",
    "absent_control": "a\tb\nc",
    "absent_long": "x" * 400,
}


def add_all(book):
    book.title("words")
    for name, words in OBJECT.items():
        book.case(f"words_{name}", words, FILES, b"hi", DICE)
    for name, words in OTHERS.items():
        book.case(f"words_{name}", words, FILES, b"hi", DICE)
    book.title("names of files")
    for name, file in NAMES.items():
        book.case(f"file_{name}", ["check", "--config", file], FILES)
        book.case(f"file_{name}_encrypt", object_words("encrypt", name=file), FILES, b"hi", DICE)
    book.case("file_of_a_foreign_name", ["check", "--config", "n\u00e9 \u20ac"], (("n\u00e9 \u20ac", config("secrets: identity")),))
    book.case("file_first_of_two", check("c.json"), (("c.json", config("a: identity")), ("c.json", config("b: identity"))))
    book.case("file_second_of_two", check("d.json"), (("c.json", config("a: identity")), ("d.json", config("b: identity"))))


def check(name):
    return ["check", "--config", name]
