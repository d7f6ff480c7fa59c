"""Plans of rollouts: moves, settings, clashes and limits."""

import random

from reference import configuration, rollout

from .form import check_words, config

OLD, LAST = "secrets: aescbc:key1=S1, identity", "secrets: aescbc:key2=S2, identity"

GROUPED = "*.apps: aesgcm:g=K24 | *.*: identity", "deployments.apps: aescbc:a=K16 | *.: aesgcm:b=K32 | *.*: aescbc:c=K24"


def plan_words(replicas="2", show=None):
    return ["plan", "--from", "a.json", "--to", "b.json", "--replicas", replicas] + ([] if show is None else ["--show", show])


def both(before, after):
    return (("a.json", config(before)), ("b.json", config(after)))


def plan(book, name, before, after, replicas="2", **more):
    """The moves of a plan, and both settings of it."""
    book.case(f"plan_{name}", plan_words(replicas), both(before, after), **more)
    for show in ("wide", "turned"):
        book.case(f"plan_{name}_{show}", plan_words(replicas, show), both(before, after), **more)


def keys(start, end):
    return "aescbc:" + "+".join(f"k{number}=K16" for number in range(start, end))


def entries(start, end):
    return " | ".join(f"r{number}: identity" for number in range(start, end))


def plugins(start, end):
    return ", ".join(f"kms:p{number}" for number in range(start, end))


def add_plans(book):
    plan(book, "new_key", OLD, LAST)
    plan(book, "same", OLD, OLD)
    plan(book, "of_one_replica", OLD, LAST, "1")
    plan(book, "of_sixteen_replicas", OLD, LAST, "16")
    plan(book, "from_nothing", "secrets: identity", OLD)
    plan(book, "to_nothing", OLD, "secrets: identity")
    plan(book, "of_groups", *GROUPED)
    plan(book, "resource_masked_by_a_group", "a.apps: aescbc:a=K16 | *.apps: identity", "*.apps: aescbc:b=K16, identity")
    plan(book, "order_of_classes", "b: identity | a.z: identity | a: identity | *.b: identity | *.: identity | *.a: identity", "*.*: identity")
    plan(book, "several_keys", "secrets: aescbc:a=K16+b=K32, aesgcm:a=K16", "secrets: aesgcm:b=K16, aescbc:b=K32, identity")
    plan(book, "plugins", "secrets: kms:p, identity | *.*: kms:p", "secrets: kms:q, kms:p | *.*: kms:q, kms:p")
    plan(book, "name_with_marks", "secrets: aescbc:a\"\\b=K16", "secrets: kms:\"\\")
    plan(book, "masked_secret", "secrets: aescbc:a=K16 | secrets: aescbc:a=K32", "secrets: aescbc:a=K16, identity")


def add_refusals(book):
    book.case("plan_clash", plan_words(), both("secrets: aescbc:key1=S1", "secrets: aescbc:key1=S2"))
    book.case("plan_clash_shown", plan_words(show="wide"), both("secrets: aescbc:key1=K16", "secrets: aescbc:key1=K32"))
    book.case("plan_clash_at_the_rest", plan_words(), both("*.*: aesgcm:g=K16", "a: identity | *.*: aesgcm:g=K24"))
    book.case("plan_clash_at_a_group", plan_words(), both("*.: identity, aesgcm:g=K16 | *.*: aesgcm:g=K16", "*.*: aesgcm:g=K24"))
    book.case("plan_clash_of_the_first_class", plan_words(), both("b: aescbc:k=K16 | a: aescbc:k=K16", "b: aescbc:k=K32 | a: aescbc:k=K32"))
    book.case("plan_clash_of_the_first_provider", plan_words(), both("a: aescbc:l=K16+k=K16", "a: aescbc:k=K32+l=K32"))
    book.case("plan_no_clash_of_kinds", plan_words(), both("a: aescbc:k=K16", "a: aesgcm:k=K32"))
    book.case("plan_no_clash_of_classes", plan_words(), both("a: aescbc:k=K16", "b: aescbc:k=K32"))
    for name, before, after in (
        ("entries_64", entries(0, 32), entries(32, 63)), ("entries_65", entries(0, 32), entries(32, 64)),
        ("keys_64", f"a: {keys(0, 32)}", f"a: {keys(32, 64)}"), ("keys_65", f"a: {keys(0, 32)}", f"a: {keys(32, 65)}"),
        ("keys_by_classes", f"a: {keys(0, 20)} | b: identity", f"*.*: {keys(0, 20)}"),
        ("kms_16", f"a: {plugins(0, 8)}", f"a: {plugins(8, 16)}"), ("kms_17", f"a: {plugins(0, 8)}", f"a: {plugins(8, 17)}"),
        ("keys_before_kms", f"a: {keys(0, 33)}, {plugins(0, 9)}", f"a: {keys(33, 65)}, {plugins(9, 17)}"),
        ("clash_before_entries", entries(0, 32) + " | z: aescbc:k=K16", entries(32, 64) + " | z: aescbc:k=K32"),
    ):
        book.case(f"plan_{name}", plan_words(), both(before, after))
    book.case("plan_absent_from", plan_words(), both(OLD, LAST)[1:])
    book.case("plan_absent_to", plan_words(), both(OLD, LAST)[:1])
    book.case("plan_breach_of_from", plan_words(), (("a.json", "{}"), ("b.json", "{}")))
    book.case("plan_breach_of_to", plan_words(), (("a.json", config(OLD)), ("b.json", "x")))
    book.case("plan_one_file", ["plan", "--from=a.json", "--to=a.json", "--replicas=3"], both(OLD, LAST))


def add_words(book):
    for name, words in {
        "replicas_0": plan_words("0"), "replicas_16": plan_words("16"), "replicas_17": plan_words("17"), "replicas_long": plan_words("9" * 40),
        "replicas_leading_zero": plan_words("02"), "replicas_empty": plan_words(""), "replicas_sign": plan_words("+2"), "show_to": plan_words(show="to"),
        "show_empty": plan_words(show=""), "show_twice": plan_words(show="wide") + ["--show", "turned"], "without_replicas": plan_words()[:-2],
        "without_from": plan_words()[:1] + plan_words()[3:], "without_to": plan_words()[:3] + plan_words()[5:], "with_store": plan_words() + ["--store", "s"],
        "with_replica": plan_words() + ["--replica", "a.json"], "replicas_17_and_a_bad_show": plan_words("17", "to"),
    }.items():
        book.case(f"plan_words_{name}", words, both(OLD, LAST))
    book.case("plan_17_before_the_files", plan_words("17"))


# ---- settings that are read back, and plans that are drawn

EXACT, GROUPS = ["a", "b", "c", "a.x", "b.x", "c.y"], ["*.", "*.x", "*.y", "*.z"]
KEYS = [f"{kind}:{name}" for kind in ("aescbc", "aesgcm") for name in ("k", "l", "m")]


def shown(before, after, phase):
    """The text of a plan's settings, by the reference."""
    one, other = (configuration.read(config(text).encode()) for text in (before, after))
    if phase == "turned":
        one, other = other, one
    return rollout.settings_text(rollout.merged(rollout.classes_of(one, other), one, other)).decode()


def add_read_back(book):
    """What `check` says of the settings that are shown, and for resources of each kind of class."""
    for phase in ("wide", "turned"):
        book.case(f"plan_new_key_{phase}_checked", check_words(), (("c.json", shown(OLD, LAST, phase)),))
        text = shown(*GROUPED, phase)
        book.case(f"plan_of_groups_{phase}_checked", check_words(), (("c.json", text),))
        for resource in ("deployments.apps", "pods", "x.apps", "x.y"):
            book.case(f"plan_of_groups_{phase}_checked_{resource}", check_words(resource), (("c.json", text),))


def drawn(draw, odd):
    """Entries of some patterns, each with some providers; an odd one has another secret at a key now and then."""
    entries = []
    for _ in range(draw.randint(1, 4)):
        patterns = draw.sample(EXACT, draw.randint(1, 2)) if draw.random() < 0.6 else [draw.choice([*GROUPS, "*.*"])]
        providers = draw.sample(["identity", "kms:p", "kms:q", *KEYS], draw.randint(1, 4))
        spelled = [f"{it}={'K24' if odd and draw.random() < 0.2 else 'K16'}" if it in KEYS else it for it in providers]
        entries.append(f"{','.join(patterns)}: {', '.join(spelled)}")
    return " | ".join(entries)


def add_drawn(book):
    draw = random.Random(52)
    for number in range(60):
        pair = both(drawn(draw, False), drawn(draw, draw.random() < 0.3))
        for show in [(None, "wide"), ("wide", "turned"), (None, "turned")][number % 3]:
            name = f"plan_drawn_{number}" + (f"_{show}" if show else "")
            book.case(name, plan_words(str(draw.randint(1, 16)), show), pair)


def add_all(book):
    book.title("plans")
    add_plans(book)
    add_refusals(book)
    add_words(book)
    add_read_back(book)
    add_drawn(book)
