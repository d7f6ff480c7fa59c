"""Fleet outputs, written here apart from the crates: from the grammar of the output alone.

  fleet_outputs.py write           writes crates/test_fleet_output/stdin and stdout, the table of CASES
  fleet_outputs.py check           says whether those files are what `write` would write
  fleet_outputs.py compare N SEED  compares test_fleet_output with this writer over N made outputs, and one of data of 2,097,152 bytes

The output is `journal`, a line for each event, `replies`, a line for each reply, and `end`. An event is its number, its worker
and its text; a reply is its worker, its number there, and its text. The lines that test_fleet_output reads stand at the head of
crates/test_fleet_output/src/reading.rt, asked.rt, answered.rt and told.rt."""
import base64
import os
import random
import subprocess
import sys

HERE = os.path.dirname(os.path.abspath(__file__))
CRATE = os.path.join(HERE, "..", "..", "crates", "test_fleet_output")

DATA_LIMIT = 2_097_152
TOP_REVISION = 2**64 - 1
TOP_GENERATION = 2**32 - 1

REFUSALS = ["Short", "BadBlock", "BadPadding", "BadTag", "Wire", "KeyId", "Source", "Annotations", "SourceType", "NoData",
            "NotUtf8", "NoProvider", "LooksEncrypted", "TooLarge", "SeedLength"]


# ---- the words that test_fleet_output reads, of an event (its kind and what it is about) and an answer or a reply

def word(item):
    if isinstance(item, bytes):
        return item.hex() or "-"
    return str(item) or "-"


def words(items):
    return " ".join(word(item) for item in items)


# ---- the texts

def name_at(replicas, number):
    return replicas[number] if number < len(replicas) else ""


OF_REPLICA = {"adopted": "adopt", "reloaded": "reload", "joined": "join", "departed": "leave", "moved": "moved",
              "present": "present", "refused": "refused"}


def event_text(replicas, asked, answer):
    """An event by its answer, which has the first word on what it says."""
    kind, about = asked[0], asked[1:]
    has_path = kind in ("fetch", "after", "put", "delete", "replace")
    replica = name_at(replicas, about[0]) if kind in ("adopt", "reload", "join", "leave") else ""
    path = (about[0] if has_path else "") or "-"
    said, number = answer[0], answer[-1]
    if said in OF_REPLICA:
        return f"{OF_REPLICA[said]} {replica} {number}"
    if said == "found":
        return f"{kind} {path} {number}"
    if said == "absent":
        return f"{kind} {path} 0"
    if said in ("written", "changed"):
        old = f"{path} {about[1]}" if kind == "replace" else path
        return f"{kind if said == 'written' else 'changed'} {old} {number}"
    if said == "gone":
        return f"gone {kind} {name_at(replicas, number)}"
    if said in ("failed", "full"):
        return f"{said} {kind} {path}"
    return {"released": "letgo", "nothing": f"nothing {kind}"}[said]


def foreign(text):
    return "".join(chr(byte) if 0x20 <= byte <= 0x7E else "?" for byte in text.encode())


def reply_text(told):
    said, rest = told[0], told[1:]
    if said == "got":
        return f"get {rest[0]} {base64.b64encode(rest[1]).decode() or '-'}"
    if said == "value":
        return f"refused {rest[0]} {REFUSALS[rest[0] - 1]}"
    if said == "unhealthy":
        return f"unhealthy {rest[0]} {rest[1]} {foreign(rest[2])}"
    texts = {"put": "put", "deleted": "delete", "absent": "absent", "rewritten": "rewrite", "reloaded": "reload", "joined": "join",
             "present": "present", "left": "leave", "gone": "gone", "refused": "refused", "refreshed": "refresh",
             "unchanged": "refresh unchanged", "moved": "refresh moved", "plugin": "fault plugin", "dice": "fault dice",
             "store": "fault store", "full": "full", "memory": "memory"}
    return " ".join([texts[said]] + [str(item) for item in rest])


class Output:
    """A fleet of named replicas and workers, its events (seat, what was asked, the answer), and each worker's replies."""

    def __init__(self, replicas, workers, events, replies):
        self.replicas, self.workers, self.events, self.replies = replicas, workers, events, replies

    def fleet(self):
        lines = ["fleet 1"] + [f"replica {name} f" for name in self.replicas]
        return "".join(line + "\n" for line in lines + [f"worker {name} {self.replicas[0]}" for name in self.workers]).encode()

    def lines(self):
        yield "fleet " + word(self.fleet())
        for seat, asked, answer in self.events:
            yield f"event {seat} {words(asked)} | {words(answer)}"
        for told in self.replies:
            for reply in told:
                yield "reply " + words(reply)
            yield "next"
        yield "print"

    def text(self):
        yield "journal"
        for number, (seat, asked, answer) in enumerate(self.events):
            yield f"{number} {name_at(self.workers, seat)} {event_text(self.replicas, asked, answer)}"
        yield "replies"
        for worker, told in zip(self.workers, self.replies):
            for number, reply in enumerate(told, 1):
                yield f"{worker} {number} {reply_text(reply)}"
        yield "end"


def given(outputs):
    return "".join(line + "\n" for output in outputs for line in output.lines())


def printed(outputs):
    return "".join(line + "\n" for output in outputs for line in output.text())


# ---- the stored ones

VERDICTS = ["pass", "drops-stored /s identity", "drops-stored /s aescbc:key1", "drops-stored /s aesgcm:key2", "drops-stored /s kms:p",
            "drops-writer 0 secrets aescbc:key1", "drops-writer 4294967295 *.apps kms:p", "unread 1 *.* identity",
            "unread 2 *. aesgcm:key2", "unread 10 deployments.apps identity"]

ASKED = [("adopt", 0), ("fetch", "/registry/secrets/d/s"), ("after", "/s"), ("put", "/s", "secrets", b"hello"), ("delete", "/t"),
         ("replace", "/s", 1), ("letgo",), ("reload", 1), ("join", 1), ("leave", 0)]

ANSWERS = [("adopted", 7), ("found", 1), ("absent",), ("written", 2), ("changed", 4), ("released",), ("reloaded", 3), ("joined", 5),
           ("refused", "drops-stored /s aescbc:key1"), ("moved", 6), ("present", 8), ("departed", 9), ("gone", 1), ("failed",),
           ("full", 44), ("nothing",)]

# What a core answers to each kind; to each kind it may answer `nothing`, but for `letgo` and `leave`.
OF_CORE = {"adopt": ("adopted", "gone"), "fetch": ("found", "absent"), "after": ("found", "absent"),
           "put": ("written", "failed", "full"), "delete": ("written", "absent", "failed", "full"),
           "replace": ("written", "changed", "failed", "full"), "letgo": ("released",),
           "reload": ("reloaded", "refused", "moved", "gone"), "join": ("joined", "refused", "present"), "leave": ("departed", "gone")}


def is_of_core(asked, answer):
    return answer[0] in OF_CORE[asked[0]] or answer[0] == "nothing" and asked[0] not in ("letgo", "leave")


TOLD = [("put", 1), ("got", 2, b""), ("got", 1, b"hello"), ("got", 3, b"\x00\xff\x10\n"), ("got", TOP_REVISION, b"ab"), ("deleted", 3),
        ("absent",), ("rewritten", 1, 2, 3, 40), ("rewritten", TOP_REVISION, 0, TOP_REVISION, 0), ("reloaded", 4), ("joined", 5),
        ("present", 6), ("left", 7), ("gone",), ("refreshed", 8), ("unchanged",), ("moved", 9), ("dice", 1), ("dice", TOP_GENERATION),
        ("plugin", "p"), ("store",), ("full",), ("memory",),
        ("unhealthy", "p", "version", "v1"), ("unhealthy", "p", "healthz", "not ok, for  a reason"), ("unhealthy", "p", "healthz", ""),
        ("unhealthy", "p", "key_id", "a\tb c\u00e9 \x00\x1f \x7e\x7f \u20ac\U0001f511")]
TOLD += [("value", number) for number in range(1, 16)] + [("refused", verdict) for verdict in VERDICTS]

TWO = ["a", "b"], ["w", "v"]


def of_core():
    return [(0, asked, answer) for asked in ASKED for answer in ANSWERS if is_of_core(asked, answer)]


def others():
    return [(1, asked, answer) for asked in ASKED for answer in ANSWERS if not is_of_core(asked, answer)]


EDGES = [(0, ("after", ""), ("found", 12)), (0, ("after", ""), ("absent",)), (0, ("after", ""), ("failed",)),
         (0, ("delete", "/s"), ("written", 0)), (0, ("replace", "/s", 1), ("changed", 0)),
         (0, ("replace", "/s", TOP_REVISION), ("written", TOP_REVISION)), (0, ("adopt", 1), ("adopted", TOP_GENERATION)),
         (0, ("put", "/" + "p" * 1023, "secrets", b""), ("written", 1)), (2, ("letgo",), ("released",)),
         (TOP_GENERATION, ("adopt", 2), ("adopted", 0)), (1, ("join", TOP_GENERATION), ("gone", TOP_GENERATION))]

CASES = [
    # nothing happened
    Output(*TWO, [], [[], []]),
    # each event with each answer that a core gives to it, and with each that none gives
    Output(*TWO, of_core(), [[], []]),
    Output(*TWO, others(), [[], []]),
    Output(*TWO, [(0, ("reload", 0), ("refused", verdict)) for verdict in VERDICTS], [[], []]),
    # empty paths, the greatest numbers, a seat and a replica that there are none of
    Output(*TWO, EDGES, [[], []]),
    # each reply, once of the first worker and once of the last
    Output(*TWO, [], [TOLD, []]),
    Output(["a"], ["u", "v", "w"], [(2, ("adopt", 0), ("adopted", 0))], [[], [("put", 1)], TOLD]),
    # fewer lists of replies than workers, and more
    Output(*TWO, [], [[("gone",)]]),
    Output(*TWO, [], [[("gone",)], [("full",)], [("memory",)]]),
]

# Lines that aren't of the form, the first two before there is a fleet.
WRONG = ["print", "event 0 letgo | released"], ["", "prints", "event", "event 0", "event 0 letgo", "event x letgo | released",
         "event 0 letgo |", "event 0 leap | absent", "event 0 leap 1 | absent", "event 0 letgo | found", "event 0 letgo | found x",
         "event 0 letgo | lost 1", "event 0 put /s secrets 0 | absent", "event 0 letgo | refused drops-none /s identity",
         "event 0 letgo | refused drops-stored /s aes:k", "event 0 letgo | refused unread 0 secrets", "reply", "reply value 0",
         "reply value 16", "reply got 1", "reply got 1 0", "reply rewritten 1 2 3", "reply unhealthy p name x",
         "reply put 18446744073709551616", "reply dice 4294967296", "fleet 0", "fleet -", "# a remark"]


def stored():
    first, rest = WRONG
    answers = "line\n" * len(first) + printed(CASES) + "line\n" * (len(rest) - 1) + printed(CASES[-1:])
    return {"stdin": "".join(line + "\n" for line in first) + given(CASES) + "".join(line + "\n" for line in rest) + "print\n",
            "stdout": answers}


# ---- made ones

def made_number(rng, top):
    return rng.choice([0, 1, rng.randrange(1000), rng.randrange(top + 1), top])


def made_path(rng):
    return "/" + "".join(chr(rng.randrange(0x21, 0x7F)) for _ in range(rng.randrange(1, 20)))


def made_verdict(rng):
    who = rng.choice(["identity", "aescbc:k", "aesgcm:" + made_path(rng).replace(":", ""), "kms:p"])
    of_class = rng.choice(["secrets", "deployments.apps", "*.apps", "*.", "*.*"])
    number = made_number(rng, TOP_GENERATION)
    return rng.choice([f"drops-stored {made_path(rng)} {who}", f"drops-writer {number} {of_class} {who}",
                       f"unread {number} {of_class} {who}"])


def made_event(rng, replicas, workers):
    kind = rng.choice(ASKED)[0]
    about = {"letgo": [], "put": [made_path(rng), "secrets", rng.randbytes(rng.randrange(4))],
             "replace": [made_path(rng), made_number(rng, TOP_REVISION)]}
    if kind in ("adopt", "reload", "join", "leave"):
        asked = (kind, rng.randrange(replicas + 1))
    else:
        asked = (kind, *about.get(kind, [rng.choice(["", made_path(rng)]) if kind == "after" else made_path(rng)]))
    said = rng.choice(ANSWERS)[0]
    if said == "refused":
        answer = (said, made_verdict(rng))
    elif said in ("found", "written", "changed", "full"):
        answer = (said, made_number(rng, TOP_REVISION))
    elif said in ("absent", "released", "failed", "nothing"):
        answer = (said,)
    else:
        answer = (said, rng.randrange(replicas + 1) if said == "gone" else made_number(rng, TOP_GENERATION))
    return rng.randrange(workers + 1), asked, answer


def made_reply(rng):
    told = rng.choice(TOLD)
    if told[0] == "got":
        return "got", made_number(rng, TOP_REVISION), rng.randbytes(rng.randrange(200))
    if told[0] == "unhealthy":
        text = "".join(chr(rng.choice([rng.randrange(0x0B, 0x0D), rng.randrange(0x20, 0x100), 0x4E2D, 0x1F511])) for _ in range(9))
        return *told[:3], text + "."
    if told[0] == "refused":
        return "refused", made_verdict(rng)
    if told[0] in ("put", "deleted"):
        return told[0], made_number(rng, TOP_REVISION)
    return told


def made_output(rng):
    replicas = [f"r{number}" for number in range(rng.choice([1, 2, 3, 16]))]
    workers = [f"w{number}" for number in range(rng.choice([1, 2, 3, 64]))]
    events = [made_event(rng, len(replicas), len(workers)) for _ in range(rng.randrange(30))]
    replies = [[made_reply(rng) for _ in range(rng.randrange(6))] for _ in range(len(workers) + rng.choice([-1, 0, 0, 0, 1]))]
    return Output(replicas, workers, events, replies)


def program():
    """The built program, or rt's run of it where it isn't built or older than its sources."""
    built = os.path.join(CRATE, "out", "test_fleet_output")
    if os.path.exists(built):
        age = os.path.getmtime(built)
        sources = [os.path.join(folder, name) for crate in ("test_fleet_output", "test_support", "kr_script", "kr_judge", "kr_base")
                   for folder, _, names in os.walk(os.path.join(HERE, "..", "..", "crates", crate, "src")) for name in names]
        if all(os.path.getmtime(source) <= age for source in sources):
            return ["./out/test_fleet_output"]
    return ["rt", "run"]


def compare(count, seed):
    rng = random.Random(seed)
    outputs = [made_output(rng) for _ in range(count)]
    outputs.append(Output(*TWO, [], [[("got", 1, rng.randbytes(DATA_LIMIT))], [("full",)]]))
    ran = subprocess.run(program(), cwd=CRATE, input=given(outputs).encode(), stdout=subprocess.PIPE)
    if ran.returncode != 0:
        print("fleet_outputs: test_fleet_output ended with status %d (seed %d)" % (ran.returncode, seed))
        return 1
    answers, wanted = ran.stdout.decode().splitlines(), printed(outputs).splitlines()
    wrong = [(answer, want) for answer, want in zip(answers, wanted) if answer != want]
    if len(answers) != len(wanted) or wrong:
        for answer, want in wrong[:5]:
            print("test_fleet_output %s\nhere       %s" % (answer[:2000], want[:2000]))
        print("fleet_outputs: %d of %d lines differ (seed %d)" % (len(wrong) + abs(len(answers) - len(wanted)), len(wanted), seed))
        return 1
    print("fleet_outputs: %d outputs written alike, %d lines, seed %d" % (len(outputs), len(wanted), seed))
    return 0


def main(given_words):
    if given_words == ["write"]:
        for name, content in stored().items():
            with open(os.path.join(CRATE, name), "w", encoding="utf-8") as out:
                out.write(content)
        return 0
    if given_words == ["check"]:
        for name, content in stored().items():
            with open(os.path.join(CRATE, name), encoding="utf-8") as held:
                if held.read() != content:
                    print("fleet_outputs: %s isn't what `fleet_outputs.py write` writes" % name)
                    return 1
        print("fleet_outputs: %d stored outputs, %d lines" % (len(CASES), len(printed(CASES).splitlines())))
        return 0
    if len(given_words) in (2, 3) and given_words[0] == "compare":
        seed = int(given_words[2]) if len(given_words) == 3 else int.from_bytes(os.urandom(4), "big")
        return compare(int(given_words[1]), seed)
    print(__doc__)
    return 2


if __name__ == "__main__":
    sys.exit(main(sys.argv[1:]))
