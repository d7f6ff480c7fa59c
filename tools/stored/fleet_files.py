"""Fleet files, read here apart from the crates: from the rules of the format alone.

  fleet_files.py write           writes crates/test_script/stdin and stdout, the table of CASES
  fleet_files.py check           says whether those files are what `write` would write
  fleet_files.py compare N SEED  compares test_script with this reader over N made files, and some large ones
  fleet_files.py large           the same of files of 64 MiB, of comments and of one line, and says how long each took

A file is UTF-8 in lines that LF or CR LF ends. Spaces around a line are dropped, a line with nothing or with a `#` first counts
for nothing, and words are parted by spaces. The first line is `fleet 1`, then come replicas, and then workers, each with its
lines. The first line that can't stand there is a breach; a limit counts where the line is no breach."""
import base64
import os
import random
import re
import subprocess
import sys
import time

HERE = os.path.dirname(os.path.abspath(__file__))
CRATE = os.path.join(HERE, "..", "..", "crates", "test_script")

NAME = re.compile(rb"[!-9;-~]{1,253}\Z")
PATH = re.compile(rb"[!-~]{1,1024}\Z")
RESOURCE = re.compile(rb"[a-z0-9-]+(\.[a-z0-9-]+)*\Z")
DATA_LIMIT = 2_097_152


class Refused(Exception):
    pass


def lines_of(file):
    """The file's lines, each without what ends it."""
    parts = file.split(b"\n")
    last = parts.pop()
    lines = [part[:-1] if part.endswith(b"\r") else part for part in parts]
    return lines + [last] if last else lines


def is_resource(word):
    return len(word) <= 253 and RESOURCE.match(word) is not None


def data_of(word):
    """The data of a word in strict standard base64, or None."""
    if word == b"-":
        return b""
    try:
        data = base64.b64decode(word, validate=True)
    except ValueError:
        return None
    return data if base64.b64encode(data) == word else None


def line_of(words, replicas):
    """What a worker's line comes to: its text, and whether its data are too long; or None."""
    keyword, rest = words[0], words[1:]
    if keyword == b"put" and len(rest) == 3:
        data = data_of(rest[2])
        if is_resource(rest[0]) and PATH.match(rest[1]) and data is not None:
            return text(b"put", rest[0], rest[1], data), len(data) > DATA_LIMIT
    elif keyword in (b"get", b"delete") and len(rest) == 1:
        if PATH.match(rest[0]):
            return text(keyword, rest[0]), False
    elif keyword in (b"rewrite", b"refresh") and not rest:
        return text(keyword), False
    elif keyword in (b"reload", b"join") and len(rest) == 2:
        if rest[0] in replicas:
            return text(keyword, replicas.index(rest[0]), rest[1]), False
    elif keyword == b"leave" and len(rest) == 1:
        if rest[0] in replicas:
            return text(keyword, replicas.index(rest[0])), False
    return None


def text(keyword, *words):
    return " ".join([keyword.decode()] + [str(word) if isinstance(word, int) else word.hex() for word in words]) + ";"


def read(file):
    """What test_script is to print for the file."""
    lines = lines_of(file)
    begun, replicas, workers, said = False, [], [], []
    for number, line in enumerate(lines, 1):
        breach = "Breach %d" % number
        try:
            line.decode("utf-8")
        except UnicodeDecodeError:
            return breach
        words = [word for word in line.split(b" ") if word]
        if not words or words[0].startswith(b"#"):
            continue
        if not begun:
            if words != [b"fleet", b"1"]:
                return breach
            begun = True
        elif words[0] == b"replica":
            if len(words) != 3 or workers or not NAME.match(words[1]) or words[1] in replicas:
                return breach
            if not replicas and words[2] == b"-":
                return breach
            if len(replicas) == 16:
                return "Replicas"
            replicas.append(words[1])
            said.append(text(*words))
        elif words[0] == b"worker":
            if len(words) != 3 or not NAME.match(words[1]) or words[1] in workers or words[2] not in replicas:
                return breach
            if len(workers) == 64:
                return "Workers"
            workers.append(words[1])
            said.append(text(b"worker", words[1], replicas.index(words[2])))
        else:
            made = line_of(words, replicas) if workers else None
            if made is None:
                return breach
            if made[1]:
                return "TooLarge"
            said.append(made[0])
    if not workers:
        return "Breach %d" % (len(lines) + 1)
    return "".join(said)


HEAD = b"fleet 1\nreplica a one.json\nworker w a\n"
TWO = b"fleet 1\nreplica a one.json\nreplica b -\nworker w a\n"


def many(count, line):
    return b"".join(line % number for number in range(count))


CASES = [
    # worked files
    HEAD + b"put secrets /registry/secrets/d/s aGVsbG8=\nget /registry/secrets/d/s\nget /registry/secrets/d/t\n",
    b"fleet 1\nreplica a old\nreplica b old\nworker w a\nput secrets /s aGVsbG8=\nreload a new\nreload a both\nreload b both\n"
    b"reload a new\nreload b new\nreload a last\nrewrite\nreload a last\nreload b last\n",
    b"fleet 1\nreplica a both\nreplica b -\nworker w a\nput secrets /s aGVsbG8=\njoin b last\njoin b both\nleave a\nget /s\n"
    b"leave b\njoin a last\njoin a new\nget /s\n",
    TWO + b"put deployments.apps /p -\nget /p\ndelete /p\nrewrite\nreload b x\nrefresh\njoin b y\nleave b\n",
    # what is missing
    b"", b"\n", b"\n\n  \n", b"# nothing\n", b"fleet 1", b"fleet 1\n", b"fleet 1\n# c\n\n", b"fleet 1\nreplica a f\n",
    b"fleet 1\nreplica a f\nworker w a", b"fleet 1\nworker w a\n", b"replica a f\n", b"worker w a\n", b"get /p\n",
    # the first line
    b"fleet 2\n", b"fleet\n", b"fleet 1 1\n", b"Fleet 1\n", b"fleet 01\n", b"# c\n\n  fleet   1  \nreplica a f\nworker w a\n",
    HEAD + b"fleet 1\n", b"fleet 1\nfleet 1\n", b"\xef\xbb\xbffleet 1\nreplica a f\nworker w a\n",
    # ends of lines and blanks
    b"fleet 1\r\nreplica a f\r\nworker w a\r\nget /p\r\n", b"fleet 1\nreplica a f\nworker w a\nget /p\r", b"fleet 1\rreplica a f\n",
    HEAD + b"rewrite\r\r\n", HEAD + b"rewrite \r\n", HEAD + b"get\t/p\n", HEAD + b"\trewrite\n", HEAD + b"   get    /p   \n",
    HEAD + b"get /p # c\n", HEAD + b"  # get\n", HEAD + b"#\n", HEAD + b"get #\n", HEAD + b"get \x00\n", HEAD + b"\x00\n",
    b"fleet 1\nreplica a o\x00n\nworker w a\n", "fleet 1\nreplica a é.json\nworker w a\n".encode(),
    # not UTF-8, in words, comments and at places where a breach stands earlier
    HEAD + b"get /\xff\n", HEAD + b"# \xc3\n", b"\xff", b"fleet 2\n\xff\n", b"fleet 1\n\xed\xa0\x80\n", b"fleet 1\n# \xc3\xa9\n",
    HEAD + b"# \xc0\x80\n", HEAD + b"# \xf4\x90\x80\x80\n",
    # replicas
    b"fleet 1\nreplica a -\nworker w a\n", b"fleet 1\nreplica a f\nreplica a g\nworker w a\n",
    b"fleet 1\nreplica a:b f\nworker w a\n", b"fleet 1\nreplica a\n", b"fleet 1\nreplica a f g\n", b"fleet 1\nreplica\n",
    HEAD + b"replica b f\n", b"fleet 1\nreplica - f\nreplica # -\nworker w #\n",
    b"fleet 1\nreplica " + b"n" * 253 + b" f\nworker w " + b"n" * 253 + b"\n", b"fleet 1\nreplica " + b"n" * 254 + b" f\n",
    "fleet 1\nreplica é f\n".encode(),
    b"fleet 1\n" + many(16, b"replica r%d f\n") + b"worker w r15\nleave r15\n",
    b"fleet 1\n" + many(17, b"replica r%d f\n") + b"worker w r16\n",
    b"fleet 1\n" + many(16, b"replica r%d f\n") + b"replica r0 f\n",
    b"fleet 1\n" + many(16, b"replica r%d f\n") + b"replica x\n",
    b"fleet 1\n" + many(16, b"replica r%d f\n") + b"replica x -\n\xff\n",
    # workers
    HEAD + b"worker w a\n", HEAD + b"worker v b\n", HEAD + b"worker v\n", HEAD + b"worker v a a\n", HEAD + b"worker v:w a\n",
    HEAD + b"worker v a\nget /p\nworker u a\nget /q\n", b"fleet 1\nreplica a f\nget /p\n",
    b"fleet 1\nreplica a f\n" + many(64, b"worker w%d a\nget /p\n"),
    b"fleet 1\nreplica a f\n" + many(65, b"worker w%d a\n"),
    b"fleet 1\nreplica a f\n" + many(64, b"worker w%d a\n") + b"worker w0 a\n",
    b"fleet 1\nreplica a f\n" + many(64, b"worker w%d a\n") + b"worker x b\n",
    # lines
    HEAD + b"put secrets /p\n", HEAD + b"put secrets /p - -\n", HEAD + b"put Secrets /p -\n", HEAD + b"put secrets. /p -\n",
    HEAD + b"put " + b"s" * 253 + b" /p -\n", HEAD + b"put " + b"s" * 254 + b" /p -\n", HEAD + b"put secrets /p QQ==\n",
    HEAD + b"put secrets /p QQ=\n", HEAD + b"put secrets /p QQ\n", HEAD + b"put secrets /p QR==\n", HEAD + b"put secrets /p QUI=\n",
    HEAD + b"put secrets /p QUJD\n", HEAD + b"put secrets /p QUJD====\n", HEAD + b"put secrets /p =\n", HEAD + b"put secrets /p --\n",
    HEAD + b"put secrets /p Q_==\n", HEAD + b"put secrets /p //+/\n", HEAD + b"put secrets /p Q.==\n",
    HEAD + b"get\n", HEAD + b"get /p /q\n", HEAD + b"get " + b"/" * 1024 + b"\n", HEAD + b"get " + b"/" * 1025 + b"\n", HEAD + b"get p\n",
    "fleet 1\nreplica a f\nworker w a\nget /é\n".encode(), HEAD + b"delete\n", HEAD + b"delete - \n", HEAD + b"rewrite x\n",
    HEAD + b"reload a\n", HEAD + b"reload b f\n", HEAD + b"reload a f g\n", HEAD + b"reload a -\n", HEAD + b"refresh x\n",
    TWO + b"join b f\n", TWO + b"join c f\n", TWO + b"join b\n", TWO + b"join a -\n", TWO + b"leave b\n", TWO + b"leave c\n", TWO + b"leave\n",
    HEAD + b"Put secrets /p -\n", HEAD + b"list\n", HEAD + b"put\n", HEAD + b"-\n",
]


def case_line(file):
    return file.hex() if file else "-"


def printed(files):
    return "".join(read(file) + "\n" for file in files)


def stored():
    lines = [case_line(file) + "\n" for file in CASES] + ["\n", "0\n", "zz\n"]
    answers = printed(CASES) + "line\n" * 3
    return {"stdin": "".join(lines), "stdout": answers}


# ---- made files

WORDS = [b"fleet", b"1", b"2", b"replica", b"worker", b"put", b"get", b"delete", b"rewrite", b"reload", b"refresh", b"join", b"leave",
         b"a", b"b", b"c", b"w", b"v", b"one.json", b"-", b"secrets", b"deployments.apps", b"/s", b"/t", b"aGVsbG8=", b"QQ==", b"QR==",
         b"#", b"\t", b"\r", b"\x00", b"\xff", "é".encode(), b"a:b", b"S", b""]


def made_line(rng, replicas, workers):
    kind = rng.randrange(12)
    replica = rng.choice(replicas) if replicas else b"a"
    path = rng.choice([b"/s", b"/t", b"/registry/secrets/d/s", b"x"])
    file = rng.choice([b"one.json", b"two", b"-"])
    if kind == 0:
        return b"# " + rng.choice(WORDS)
    if kind == 1:
        return b" " * rng.randrange(3)
    if kind in (2, 3):
        data = rng.choice([b"-", base64.b64encode(bytes(rng.randrange(256) for _ in range(rng.randrange(1, 9))))])
        return b" ".join([b"put", rng.choice([b"secrets", b"configmaps", b"deployments.apps"]), path, data])
    if kind == 4:
        return b"delete " + path
    if kind in (5, 6):
        return b"get " + path
    if kind == 7:
        return rng.choice([b"rewrite", b"refresh"])
    if kind in (8, 9):
        return b" ".join([rng.choice([b"reload", b"join"]), replica, file])
    if kind == 10:
        return b"leave " + replica
    return b" ".join([b"worker", b"w%d" % len(workers), replica])


def made_file(rng):
    lines, replicas, workers = [b"fleet 1"], [], []
    for number in range(rng.choice([1, 1, 2, 3, 3, 5, 15, 16, 16, 17])):
        replicas.append(b"r%d" % number)
        lines.append(b" ".join([b"replica", replicas[-1], rng.choice([b"one.json", b"two", b"-"]) if number else b"one.json"]))
    for number in range(rng.choice([1, 1, 1, 2, 3, 63, 64, 65])):
        workers.append(b"w%d" % number)
        lines.append(b" ".join([b"worker", workers[-1], rng.choice(replicas)]))
        for _ in range(rng.randrange(4)):
            line = made_line(rng, replicas, workers)
            if not line.startswith(b"worker"):
                lines.append(line)
    return lines


def mutated(rng, lines):
    """A change or two: of lines, of words, of bytes."""
    lines = list(lines)
    for _ in range(rng.choice([0, 1, 1, 1, 2, 3])):
        at = rng.randrange(len(lines)) if lines else 0
        kind = rng.randrange(8)
        if kind == 0 and lines:
            del lines[at]
        elif kind == 1 and lines:
            lines.insert(rng.randrange(len(lines) + 1), lines[at])
        elif kind == 2:
            lines.insert(at, made_line(rng, [b"r0", b"r1"], [b"w0"]))
        elif kind in (3, 4) and lines:
            words = lines[at].split(b" ")
            words[rng.randrange(len(words))] = rng.choice(WORDS)
            lines[at] = b" ".join(words)
        elif kind == 5 and lines:
            words = lines[at].split(b" ")
            words.insert(rng.randrange(len(words) + 1), rng.choice(WORDS))
            lines[at] = b" ".join(words)
        elif kind == 6 and lines and lines[at]:
            line = bytearray(lines[at])
            line[rng.randrange(len(line))] = rng.choice([rng.randrange(256), 0x20, 0x0D, 0x0A, 0x09, 0x23])
            lines[at] = bytes(line)
        elif lines:
            lines[at] = b" " * rng.randrange(3) + lines[at] + rng.choice([b"", b" ", b"\r", b"  "])
    ends = rng.choice([[b"\n"], [b"\n"], [b"\r\n"], [b"\n", b"\r\n"], [b"\n", b"\r"]])
    file = b"".join(line + rng.choice(ends) for line in lines)
    if rng.randrange(4) == 0:
        file = file[: rng.randrange(len(file) + 1)]
    return file


def large_files():
    """Data at the limit and above, a long comment, many comments, a line of many words."""
    for size in (DATA_LIMIT - 1, DATA_LIMIT, DATA_LIMIT + 1):
        yield HEAD + b"put secrets /p " + base64.b64encode(bytes(size)) + b"\nget /p\n"
    yield HEAD + b"put Secrets /p " + base64.b64encode(bytes(DATA_LIMIT + 1)) + b"\n"
    yield HEAD + b"#" * 4_000_000
    yield b"# c\n" * 1_000_000
    yield HEAD + b"get " + b"a " * 2_000_000
    yield b" " * 4_000_000


def huge_files():
    """Files of 64 MiB, each by what it is."""
    size = 64 * 1024 * 1024
    yield "comments", b"# a comment\n" * (size // 12)
    yield "comments behind a fleet", HEAD + b"# c\r\n" * (size // 5)
    yield "one comment", b"#" * size
    yield "one line of words", b"fleet " * (size // 6)
    yield "one line of a single word", b"f" * size
    yield "one line of data", HEAD + b"put secrets /p " + b"QUJD" * (size // 4)


def program():
    """The built program, or rt's run of it where it isn't built or older than its sources."""
    built = os.path.join(CRATE, "out", "test_script")
    if os.path.exists(built):
        age = os.path.getmtime(built)
        sources = [os.path.join(folder, name) for crate in ("test_script", "kr_script", "kr_base")
                   for folder, _, names in os.walk(os.path.join(HERE, "..", "..", "crates", crate, "src")) for name in names]
        if all(os.path.getmtime(source) <= age for source in sources):
            return ["./out/test_script"]
    return ["rt", "run"]


def compare(count, seed):
    rng = random.Random(seed)
    files = [mutated(rng, made_file(rng)) for _ in range(count)] + list(large_files())
    given = "".join(case_line(file) + "\n" for file in files)
    ran = subprocess.run(program(), cwd=CRATE, input=given.encode(), stdout=subprocess.PIPE)
    if ran.returncode != 0:
        print("fleet_files: test_script ended with status %d (seed %d)" % (ran.returncode, seed))
        return 1
    answers = ran.stdout.decode().splitlines()
    wrong = [(file, answer) for file, answer in zip(files, answers) if read(file) != answer]
    if len(answers) != len(files) or wrong:
        for file, answer in wrong[:5]:
            print("file %s\nkr_fleets %s\nhere      %s" % (file.hex()[:2000], answer[:2000], read(file)[:2000]))
        print("fleet_files: %d of %d differ (seed %d)" % (len(wrong) + abs(len(answers) - len(files)), len(files), seed))
        return 1
    kinds = {}
    for answer in answers:
        kind = answer.split(" ")[0] if answer[0].isupper() else "read"
        kinds[kind] = kinds.get(kind, 0) + 1
    print("fleet_files: %d files read alike, seed %d: %s" % (len(files), seed, ", ".join("%s %d" % k for k in sorted(kinds.items()))))
    return 0


def large():
    for name, file in huge_files():
        line = case_line(file).encode() + b"\n"
        began = time.monotonic()
        ran = subprocess.run(program(), cwd=CRATE, input=line, stdout=subprocess.PIPE)
        took = time.monotonic() - began
        answer = ran.stdout.decode().rstrip("\n")
        if ran.returncode != 0 or answer != read(file):
            print("fleet_files: %s: status %d, %s, not %s" % (name, ran.returncode, answer[:200], read(file)[:200]))
            return 1
        print("fleet_files: %d bytes, %s: %s, %.1f seconds" % (len(file), name, answer[:60], took))
    return 0


def main(words):
    if words == ["write"]:
        for name, content in stored().items():
            with open(os.path.join(CRATE, name), "w") as out:
                out.write(content)
        return 0
    if words == ["check"]:
        for name, content in stored().items():
            with open(os.path.join(CRATE, name)) as held:
                if held.read() != content:
                    print("fleet_files: %s isn't what `fleet_files.py write` writes" % name)
                    return 1
        print("fleet_files: %d stored files" % len(CASES))
        return 0
    if words == ["large"]:
        return large()
    if len(words) in (2, 3) and words[0] == "compare":
        seed = int(words[2]) if len(words) == 3 else int.from_bytes(os.urandom(4), "big")
        return compare(int(words[1]), seed)
    print(__doc__)
    return 2


if __name__ == "__main__":
    sys.exit(main(sys.argv[1:]))
