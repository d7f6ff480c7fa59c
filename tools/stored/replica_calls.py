"""Writes the stored run of test_fleet_calls, crates/test_fleet_calls/stdin and stdout; with the word `check` it compares them instead.

The cases are written here. What they answer is found by tools/stored/replica_model.py; the program itself is never asked. The lines
are those at the heads of crates/test_fleet_calls/src/case.rt and crates/test_fleet_calls/src/call.rt.
"""

import sys
from pathlib import Path

sys.dont_write_bytecode = True

from judgements import GCM1, IDENTITY, KEY1, KEY2, plugin, settings
from replica_model import KNOWN, OLD_MAGIC, Bench, Core, Cut, Desk, Form, Plan, Sealed, Seed, Store, number_of
from reference import configuration, rollout, values

CRATE = Path(__file__).resolve().parent.parent.parent / "crates" / "test_fleet_calls"


def case_answers(named, lines):
    """What the program prints for the lines of a case."""
    link, *words = lines[0].split(" ")
    if link == "settings":
        for line in lines:
            key, name, rest = line.split(" ", 2)
            if key == "settings":
                named[name] = configuration.read(rest.encode())
            else:
                turned, first, last = rest.split(" ")
                named[name], named[turned] = planned_settings(named[first], named[last])
        return
    bench = Bench(link, words)
    store = Store(lines[1].split(" ")[1:])
    kind, room, reloads, first, second = lines[2].split(" ")
    room, reloads = number_of(room), number_of(reloads)
    try:
        replicas = [bench.publish(named[first]), None if second == "-" else bench.publish(named[second])]
        core = Core(store, replicas)
    except (Cut, Form):
        yield bench.end()
        yield "case"
        return
    desk = Desk(named, core, bench, room if kind == "solo" else room // 2, reloads)
    plan = Plan(Desk(named, core, Bench(link, words), room // 2, reloads))
    desk.before = plan.before
    for line in lines[3:]:
        key, _, rest = line.partition(" ")
        if key == "#":
            continue
        if key == "bench":
            yield desk.bench.end()
            desk.bench = Bench(link, rest.split(" "))
        elif key == "between":
            number, _, plan.call = rest.partition(" ")
            plan.number = number_of(number)
        else:
            yield desk.line(line)
            yield from plan.said
            plan.said = []
    yield desk.bench.end()
    if kind == "solo":
        yield from store.lines()
    else:
        yield plan.rival.bench.end()


def answers(cases):
    named = {}
    for case in cases:
        yield from case_answers(named, case)
        yield ""


P = plugin("p")
HELLO, MARKED = b"hello".hex(), (values.MARK + b"x").hex()


def configurations():
    yield settings("plain", ("secrets", [IDENTITY]))
    yield settings("old", ("secrets", [KEY1, IDENTITY]))
    yield settings("new", ("secrets", [KEY2, KEY1, IDENTITY]))
    yield settings("both", ("secrets", [KEY1, KEY2, IDENTITY]))
    yield settings("last", ("secrets", [KEY2, IDENTITY]))
    yield settings("open", ("secrets", [IDENTITY, KEY1]))
    yield settings("gcm", ("secrets", [GCM1, KEY1, IDENTITY]))
    yield settings("kms", ("secrets", [P, IDENTITY]))
    yield settings("kms1", ("secrets", [P, KEY1, IDENTITY]))
    yield settings("key1p", ("secrets", [KEY1, P, IDENTITY]))
    yield settings("other", ("secrets", [plugin("q"), IDENTITY]))


# from one configuration to another; the settings that a plan puts between them have names
PLANNED = (("old", "last"), ("plain", "gcm"), ("key1p", "kms"), ("kms1", "open"), ("new", "old"))


def planned_settings(one, other):
    """The wide settings between the two, and the turned ones."""
    classes = rollout.classes_of(one, other)
    return rollout.merged(classes, one, other), rollout.merged(classes, other, one)


def all_settings():
    """All configurations, in one case."""
    return [*configurations(), *(f"plan wide-{first}-{last} turned-{first}-{last} {first} {last}" for first, last in PLANNED)]


def begun(link, kind="solo", first="kms", second="-", bench="k1 - 1000 -", store="- 65536 -", room=1000, reloads=9):
    return [f"{link} {bench}", f"store {store}", f"{kind} {room} {reloads} {first} {second}"]


def changed_key():
    """A value is read under a plugin's key, stale once the plugin has another one, and is gone when it is deleted."""
    for link in ("keys", "masks"):
        yield [
            *begun(link),
            f"write 0 /s secrets {HELLO}",
            "read 0 /s",
            "refresh 0",
            "bench k2 - 1000 -",
            "read 0 /s",
            "refresh 0",
            "refresh 0",
            "read 0 /s",
            "read 0 /s",
            f"write 0 /t secrets {HELLO}",
            "read 0 /t",
            "drive 0 -",
            "read 0 /s",
            "delete /s",
            "read 0 /s",
            "delete /s",
        ]


def moved_on():
    """Another seat's call comes before the Reload of a refresh, and in the midst of other calls."""
    for link in ("keys", "masks"):
        yield [
            *begun(link, "two", second="kms"),
            f"write 0 /s secrets {HELLO}",
            "# Unchanged says so of the adopted generation, also where the replica has moved on",
            "between 2 reload 0 kms",
            "refresh 0",
            "bench k2 - 1000 -",
            "between 2 reload 0 kms",
            "refresh 0",
            "between 1 reload 0 kms",
            "refresh 0",
            "# a replica that left meanwhile",
            "between 2 leave 0",
            "refresh 0",
            "refresh 0",
            "read 0 /s",
            "read 1 /s",
            "join 0 kms",
            "read 0 /s",
            "# the adopted generation stays live while it is held",
            "between 2 leave 0",
            "read 0 /s",
            "between 1 join 0 kms",
            f"write 0 /t secrets {HELLO}",
            "between 2 delete /t",
            "read 0 /t",
            f"between 2 write 0 /t secrets 00",
            "read 0 /t",
            "between 3 write 0 /t secrets 01",
            "read 0 /t",
            "read 0 /t",
        ]
    yield [
        *begun("masks", "two", "old", "old"),
        f"write 0 /s secrets {HELLO}",
        f"write 0 /t secrets {HELLO}",
        "reload 1 both",
        "reload 0 new",
        "# a row that is written, or deleted, between being found and being replaced",
        f"between 3 write 1 /s secrets 00",
        "drive 0 -",
        "between 3 delete /s",
        "step 0 -",
        "between 2 delete /t",
        "step 0 -",
        "drive 0 -",
        f"write 1 /s secrets {HELLO}",
        "between 3 reload 0 both",
        "drive 0 -",
        "read 0 /s",
        "# a configuration that drops the writer of one that is held",
        "between 2 reload 0 last",
        f"write 1 /u secrets {HELLO}",
        "between 2 leave 1",
        f"write 1 /u secrets {HELLO}",
        "reload 0 last",
        "drive 0 -",
        "read 1 /u",
        "join 1 last",
        "join 1 both",
    ]


def rewrites():
    """A drive alone, and again; data that identity can't write; a resource without a list of its own."""
    yield [
        *begun("keys", first="old"),
        f"write 0 /s secrets {HELLO}",
        "drive 0 -",
        "reload 0 new",
        "drive 0 -",
        "drive 0 -",
        "drive 0 /s",
        "read 0 /s",
    ]
    yield [
        *begun("keys", first="old"),
        f"write 0 /a secrets {MARKED}",
        f"write 0 /b secrets {HELLO}",
        f"write 0 /c pods {HELLO}",
        "reload 0 open",
        f"write 0 /d secrets {MARKED}",
        "drive 0 -",
        "drive 0 -",
        "step 0 -",
        "step 0 /a",
        "step 0 /b",
        "step 0 /c",
        "step 0 /d",
        "read 0 /a",
        "drive 0 /b",
    ]
    yield [
        *begun("masks", first="old"),
        f"write 0 /a secrets {HELLO}",
        "reload 0 gcm",
        f"write 0 /b secrets {HELLO}",
        "drive 0 -",
        "reload 0 kms1",
        "reload 0 key1p",
        f"write 0 /c secrets {HELLO}",
        "reload 0 kms1",
        "drive 0 /b",
        "reload 0 key1p",
        "drive 0 /b",
        "reload 0 other",
        "reload 2 old",
        "reload 0 plain",
        "read 0 /a",
    ]


def planned():
    """The moves of a plan, with an object of before: each reload gives a generation, also where an object is put between two."""
    for first, last in PLANNED:
        wide, turned = f"wide-{first}-{last}", f"turned-{first}-{last}"
        for between in ((), (f"write 0 /t secrets {HELLO}", f"write 1 /u pods {HELLO}")):
            yield [
                *begun("keys", first=first, second=first),
                f"write 0 /s secrets {HELLO}",
                *(line for move in (f"reload 0 {wide}", f"reload 1 {wide}", f"reload 0 {turned}", f"reload 1 {turned}", "drive 0 -", f"reload 0 {last}", f"reload 1 {last}") for line in (move, *between)),
                "read 0 /s",
                "read 1 /s",
            ]
    yield [
        *begun("keys", first="old", second="old", reloads=20),
        f"write 0 /s secrets {HELLO}",
        "# too early: replica 1 couldn't read what 0 would write",
        "reload 0 turned-old-last",
        "reload 0 wide-old-last",
        "reload 0 turned-old-last",
        "reload 1 wide-old-last",
        "reload 0 turned-old-last",
        "# too early: replica 1 still writes by the old key, and so is what is stored",
        "reload 0 last",
        "reload 1 turned-old-last",
        "reload 0 last",
        "drive 1 -",
        "reload 0 last",
        "reload 1 last",
        "read 1 /s",
    ]


def plain_file(rows):
    """A file of the first format."""
    data = OLD_MAGIC
    for revision, (path, stored) in enumerate(rows, 1):
        for text, width in ((path, 2), (b"secrets", 2), (stored, 4)):
            if width == 2 and text is path:
                data += bytes([1]) + revision.to_bytes(8, "big")
            data += len(text).to_bytes(width, "big") + text
    return data.hex()


def many_rows():
    """1,000 rows, each tenth of which isn't readable."""
    short = values.prefix(("aescbc", "key1")) + b"short"
    rows = [(b"/r%03d" % number, short if number % 10 == 9 else b"%d" % number) for number in range(1000)]
    yield [
        *begun("keys", first="open", bench="k1 - 20000 -", store=f"{plain_file(rows)} 262144 -", room=10000),
        "reload 0 old",
        "drive 0 -",
        "drive 0 -",
        "read 0 /r000",
        "read 0 /r009",
        "read 0 /r998",
    ]


# Data sealed at a path by a key of 32 equal bytes, AES-256-GCM with 12 zero bytes as its nonce. Made with Python's
# cryptography.
NOTHING_AT_S_BY_0 = "e34d2ad8cff9f3b93a6a745f749b9a09"


def first_kind(sealed, data, byte):
    """A value of source type 0: the nonce, the sealed data, and their key as the link in memory masks it for k1 and salt 1."""
    salt = bytes.fromhex("0a11") + b"test.kmsrest/salt" + bytes.fromhex("120101")
    fields = ((0x0A, bytes(12) + bytes.fromhex(sealed)), (0x12, b"k1"), (0x1A, bytes([byte ^ 0x9D]) * 32), (0x22, salt))
    stored = values.prefix(("kms", "p")) + b"".join(bytes([tag, len(field)]) + field for tag, field in fields)
    KNOWN[stored] = Sealed(("kms", "p"), data, Seed("masks", "k1", bytes([byte]) * 32, 0))
    return stored


def first_sources():
    """A row of source type 0 is read, is stale, and is carried over."""
    yield [
        *begun("masks", store=f"{plain_file([(b'/s', first_kind(NOTHING_AT_S_BY_0, b'', 0))])} 65536 -"),
        "read 0 /s",
        "read 0 /s",
        "drive 0 -",
        "read 0 /s",
        "drive 0 -",
    ]


def faults():
    """Each fault of link, dice and tape at each call, and then the call again."""
    for link in ("keys", "masks"):
        yield [*begun(link, bench="k1 1 1000 -")]
        yield [*begun(link, bench="k1 2 1000 -")]
        yield [*begun(link, bench="k1 - 31 -")]
        for fails, dice in (("1", "-"), ("2", "-"), ("3", "-"), ("-", "1"), ("-", "2")):
            calls = [f"write 0 /t secrets {HELLO}", "read 0 /s", "refresh 0", "reload 0 kms", "leave 1", "join 1 kms", "drive 0 -"]
            lines = [*begun(link, second="kms"), f"write 0 /s secrets {HELLO}"]
            for call in calls:
                if call.startswith("join"):
                    lines += ["leave 1"]
                lines += [f"bench k2 {fails} 1000 {dice}", call, call, "bench k1 - 1000 -"]
            yield lines
    for fails in ("1", "2", "3", "2,3", "4"):
        yield [
            *begun("masks", first="old", store=f"- 65536 {fails}"),
            f"write 0 /s secrets {HELLO}",
            f"write 0 /s secrets {HELLO}",
            f"write 0 /t secrets {HELLO}",
            "reload 0 new",
            "drive 0 -",
            "drive 0 -",
            "delete /s",
            "delete /s",
            "read 0 /s",
            "read 0 /t",
        ]
    yield [
        *begun("masks", bench="k1/down - 1000 -"),
    ]
    yield [
        *begun("masks"),
        "bench k2/down - 1000 -",
        "refresh 0",
        "reload 0 kms",
        f"write 0 /s secrets {HELLO}",
        "bench k1 - 43 -",
        f"write 0 /s secrets {HELLO}",
        "read 0 /s",
    ]


def limits():
    """A store without room, a seat without lines or configurations to bring, a replica that is out."""
    yield [
        *begun("masks", first="old", store="- 150 -"),
        f"write 0 /s secrets {HELLO}",
        f"write 0 /t secrets {HELLO}",
        "reload 0 new",
        "drive 0 -",
        "delete /s",
        "delete /s",
        "read 0 /s",
        "drive 0 -",
    ]
    for room in range(2, 12):
        yield [
            *begun("masks", first="old", room=room, reloads=1),
            f"write 0 /s secrets {HELLO}",
            "reload 0 new",
            "drive 0 -",
            "read 0 /s",
            "delete /s",
            "reload 0 new",
            "leave 0",
        ]
    yield [
        *begun("masks", reloads=2),
        "read 1 /s",
        f"write 1 /s secrets {HELLO}",
        "refresh 1",
        "leave 1",
        "reload 1 kms",
        "step 1 -",
        "drive 1 -",
        "join 1 kms",
        "join 1 kms",
        "refresh 0",
        "leave 0",
        "leave 0",
        f"write 1 /s secrets {HELLO}",
        "read 0 /s",
        "read 1 /s",
        "read 2 /s",
        "read 0",
        "write 0 /s Secrets 00",
        "write 0 /s secrets 0",
        "drive 0 / s",
        "fetch 0 /s",
    ]


def cases():
    yield all_settings()
    for part in (changed_key, moved_on, rewrites, planned, many_rows, first_sources, faults, limits):
        yield from part()


def main():
    made = list(cases())
    asked = "\n".join(line for case in made for line in [*case, ""]) + "\n"
    told = "\n".join(answers(made)) + "\n"
    if sys.argv[1:] == ["check"]:
        same = (CRATE / "stdin").read_text() == asked and (CRATE / "stdout").read_text() == told
        print(f"test_fleet_calls: {told.count(chr(10))} lines" if same else "test_fleet_calls: the stored run differs")
        return not same
    (CRATE / "stdin").write_text(asked)
    (CRATE / "stdout").write_text(told)
    return 0


if __name__ == "__main__":
    sys.exit(main())
