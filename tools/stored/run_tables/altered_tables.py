"""What is cut and altered, and calls of the outside that fail: tables with a row for each case, which name its input, what is done
to it, and what must come of it. So here, and here alone, an answer stands beside its case: `compare` holds the stored answers
against it."""

from reference.store import Broken, read
from reference.values import prefix

from .call_tables import BARE, FIPS_IV, HELLO, files
from .call_tables import TWO as KEYED
from .fleet_tables import DATA, fleet
from .form import check_words, object_words
from .objects import bytes_of
from .plugin_tables import DRAWN, KMS, SOURCE, ZEROS, plugin, value
from .store_tables import ONE
from .stored_tables import put_words
from .yaml_tables import EXAMPLE


def told(source_notes):
    """What `inspect` writes of an object of source type 0 of so many bytes, with so many annotations."""
    size, notes = source_notes
    return "".join(line + "\n" for line in (f"kms p {size}", "key-id k1", "source 1", *["annotation a.io 1"] * notes, "type 0", "data 2"))


def but(data, at, *numbers):
    """The bytes, with these from a place on."""
    return data[:at] + bytes(numbers) + data[at + len(numbers) :]


def line_before(line, text):
    """The example's lines, with a text as its line of this number."""
    lines = EXAMPLE.split("\n")
    return "\n".join(lines[: line - 1] + [text] + lines[line - 1 :])


OBJECT, OLD_FILE, YAML = "an object", "a store of format 1", "a YAML file"
WHOLE = bytes_of("whole")
TAB = "\n".join(("\t" + line) if number == 3 else line for number, line in enumerate(EXAMPLE.split("\n"), 1))

# input, case, what is given, and the line of the refusal, or what is written
ALTERED = [
    *((OBJECT, f"cut to {size}", WHOLE[:size], line) for size, line in ((0, "refused 10 NoData"), (4, "refused 6 KeyId"), (8, "refused 7 Source"))),
    *((OBJECT, f"cut to {size}", WHOLE[:size], "refused 5 Wire 0") for size in (1, 2, 3)),
    *((OBJECT, f"cut to {size}", WHOLE[:size], "refused 5 Wire 4") for size in (5, 6, 7)),
    *((OBJECT, f"cut to {size}", WHOLE[:size], "refused 5 Wire 8") for size in (9, 10)),
    *((OBJECT, f"cut to {size}", WHOLE[:size], "refused 5 Wire 11") for size in range(12, 22)),
    (OBJECT, "cut to 23", WHOLE[:23], "refused 5 Wire 22"),
    (OBJECT, "cut to 11", WHOLE[:11], (11, 0)),
    (OBJECT, "cut to 22", WHOLE[:22], (22, 1)),
    *((OLD_FILE, f"cut to {size}", ONE[:size], "") for size in (0, 8)),
    *((OLD_FILE, f"cut to {size}", ONE[:size], "text 42 0") for size in range(1, 8)),
    *((OLD_FILE, f"cut to {size}", ONE[:size], "text 42 8") for size in range(9, 36)),
    (OLD_FILE, "byte 0 is 00", but(ONE, 0, 0x00), "text 41 0"),
    (OLD_FILE, "byte 8 is 03", but(ONE, 8, 0x03), "text 43 8"),
    (OLD_FILE, "byte 16 is 02", but(ONE, 16, 0x02), "text 46 8"),
    (OLD_FILE, "byte 19 is 20", but(ONE, 19, 0x20), "text 43 8"),
    (OLD_FILE, "bytes 17 and 18 are 00", but(ONE, 17, 0x00, 0x00), "text 43 8"),
    (OLD_FILE, "byte 23 is 53", but(ONE, 23, 0x53), "text 43 8"),
    (YAML, "a tab before line 3", TAB, "text 21 3 1"),
    (YAML, "apiVersion again as line 4", line_before(4, "apiVersion: apiserver.config.k8s.io/v1"), "text 21 4 3"),
]

SEALED = {"words": object_words("encrypt"), "files": files(KMS), "data": b"hello", "dice": ((0, ZEROS + DRAWN),)}
OPENED = {"words": object_words("decrypt"), "files": files(KMS), "data": value(), "dice": ((0, bytes([1]) * 32),)}
PUT = {"words": put_words(), "files": files(KEYED), "data": b"hello", "dice": ((0, FIPS_IV),), "tapes": (("s", b""),)}
REFUSED = {"words": object_words("decrypt"), "files": files(BARE), "data": HELLO, "dice": ((0, b""),)}

# the call, what fails in it, the object with the number of its call, the line, and how many rows the store has then (where a write
# on it failed any bytes may stand there)
FAILING = [
    ("put of one aescbc key", "the first read of the input", PUT, ("input", 1), "fault input 1", 0),
    ("put of one aescbc key", "the first draw", PUT, ("dice:0", 1), "fault dice 0 1", 0),
    ("put of one aescbc key", "the first write on the store", PUT, ("writes:s", 1), "fault store 1", None),
    ("put of one aescbc key", "the first settling of the store", PUT, ("settles:s", 1), "fault store 1", 1),
    ("put of one aescbc key", "the first write on the output", PUT, ("output", 1), "fault output 1", 1),
    ("decrypt of an aescbc value by identity", "the first write on the errors", REFUSED, ("errors", 1), "", None),
    ("encrypt by a plugin", "the plugin's status", SEALED, ("plugin", 1), "fault plugin p 1", None),
    ("encrypt by a plugin", "the plugin's wrap", SEALED, ("plugin", 2), "fault plugin p 1", None),
    ("decrypt by a plugin", "the plugin's unwrap", OPENED, ("plugin", 3), "fault plugin p 1", None),
]

# the example's fleet, whose store fails at its first write
LINES = [f"put secrets /registry/secrets/d/s {DATA}", "get /registry/secrets/d/s", "get /registry/secrets/d/t"]
FLEET = """journal
0 w adopt a 0
1 w failed put /registry/secrets/d/s
2 w letgo
3 w adopt a 0
4 w fetch /registry/secrets/d/s 0
5 w letgo
6 w adopt a 0
7 w fetch /registry/secrets/d/t 0
8 w letgo
replies
w 1 fault store
w 2 absent
w 3 absent
end
"""


def named(kind, case):
    return f"{kind} {case}".replace("'", "").replace(" ", "_")


def add_altered(book):
    for kind, case, given, _ in ALTERED:
        name = named(kind, case)
        if kind == OBJECT:
            book.case(name, ["inspect"], data=prefix(("kms", "p")) + given)
        elif kind == OLD_FILE:
            book.case(name, ["list", "--store", "s"], tapes=(("s", given),))
        else:
            book.case(name, check_words(), (("c.json", given),))


def add_failing(book):
    for call, case, given, (item, number), _, _ in FAILING:
        if item == "plugin":
            given = {**given, "words": given["words"] + ["--plugin", "p=prog"], "plugins": plugin(fails=str(number))}
        else:
            given = {**given, "fails": ((item, number),)}
        book.case(named(call, case), **given)


def wanted():
    """Each case's name, and its status, output and line."""
    for kind, case, _, answer in ALTERED:
        if isinstance(answer, tuple):
            yield named(kind, case), (0, told(answer), "")
        else:
            yield named(kind, case), ((1 if answer.startswith("refused") else 3) if answer else 0, "", answer)
    for call, case, *_, answer, _ in FAILING:
        yield named(call, case), (4, "", answer)
    yield "fleet_example_without_its_first_write", (4, FLEET, "")


def rows_in(parts):
    """How many rows the store has that a call left."""
    found = next(part for part in parts if part.startswith("tape:s="))
    content = bytes.fromhex(found.removeprefix("tape:s=").split(":")[0].replace("-", ""))
    try:
        return len(read(content)[1])
    except Broken as broken:
        return broken


def compare(answers):
    """Which of the answers aren't as the tables say, and why."""
    lines = {line.split(" ")[0]: line.split(" ")[1:] for line in answers.splitlines()}
    for name, (status, output, line) in wanted():
        said = f"kmsrest: {line}\n" if line else ""
        parts = [f"status={status}", *(f"{key}={text.encode().hex() or '-'}" for key, text in (("output", output), ("errors", said)))]
        if lines.get(name, [])[:3] != parts:
            yield f"{name}: {lines.get(name)}"
        elif any(part.endswith("=out") for part in lines[name]):
            yield f"{name}: not all came back"
    for call, case, *_, rows in FAILING:
        if rows is not None and rows_in(lines[named(call, case)]) != rows:
            yield f"{named(call, case)}: the store has other rows"


def add_all(book):
    book.title("what is cut and altered")
    add_altered(book)
    book.title("calls of the outside that fail")
    add_failing(book)
    fleet(book, "example_without_its_first_write", ["a one.json"], LINES, fails=(("writes:s", 1),))
