"""What the cases of test_run leave, by the implementation in reference/, which shares nothing with the Rattle code.

With no word it reads cases from standard input and prints a line for each, as test_run does. With `check` it compares the
stored answers, crates/test_run/stdout, with what it makes of the stored cases; with `write` it writes them. A case is:

    case NAME
    words WORD WORD ..    the words of the call, parted by single spaces
    file NAME CONTENT     a file of the world
    | LINE                one more line of the file named last, with LF
    input CONTENT
    dice SEAT CONTENT     random bytes of a seat
    tape NAME CONTENT     a tape of the world
    absent NAME           a tape that isn't there, which the call may make
    plugin SEAT NAME KEY_ID SALT
                          a plugin in memory, of version v2 and health ok, to which there is a link of a seat
    says VERSION HEALTHZ  what the plugin named last says in place of these
    key N KEY_ID          another key id that the plugin named last has from its Nth call on
    fails OBJECT N N ..   which calls of the object fail, from 1: input, output, errors, files, dice:SEAT, reads:TAPE,
                          writes:TAPE, settles:TAPE, or plugin, which is the one named last
    room N                bytes that the output has room for
    step N                bytes that a call of input, output and errors carries at most, 1 if not said

`files` numbers the world's calls for a file, a tape, a random source or a link in one row. Lines that are empty or begin with `#` say
nothing. In all texts a backslash begins what can't stand there: \\n, \\r, \\t, \\s and \\b are LF, CR, a tab, a space and a
backslash, \\e is nothing, \\(HEX) is bytes in hex, \\(N*HEX) N times these.

A line of the answer is NAME, and then: `status`; `output` and `errors` in hex, `-` for none, of more than 2,048 bytes their
number and SHA-256; `left`, how many bytes of the input weren't taken; `faults` of input, output, errors and files; and for
each seat how many random bytes are left and how often they failed; for each tape, those that weren't there behind the others, its
bytes and how often it failed; for each link that was asked for its program; for each plugin how many calls were made on its link and
how often they failed; `out` where they didn't come back, or where there is none.
"""

import hashlib
import re
import sys
from pathlib import Path

sys.dont_write_bytecode = True

from reference.calls import run
from reference.outside import Dice, Numbered, Sink, Source, Tape, World
from reference.plugins import Plugin

CRATE = Path(__file__).resolve().parent.parent.parent / "crates" / "test_run"
LETTERS = {"n": b"\n", "r": b"\r", "t": b"\t", "s": b" ", "b": b"\\", "e": b""}
ROOM = 4_194_304
ERRORS_ROOM = 65_536
MOST_PRINTED = 2_048


def spelled(text):
    """The bytes that a text of a case spells."""
    first, *pieces = text.split("\\")
    data = first.encode()
    for piece in pieces:
        found = re.match(r"\((?:(\d+)\*)?([0-9a-fA-F]*)\)", piece)
        if found:
            data += bytes.fromhex(found[2]) * int(found[1] or 1) + piece[found.end() :].encode()
        else:
            data += LETTERS[piece[0]] + piece[1:].encode()
    return data


class Case:
    def __init__(self, name):
        self.name, self.words, self.files, self.input, self.dice, self.tapes, self.absent = name, [], [], b"", [], [], []
        self.plugins, self.fails, self.room, self.step = [], {}, ROOM, 1

    def add(self, key, rest):
        front, _, behind = rest.partition(" ")
        if key == "words":
            self.words += [spelled(word).decode() for word in rest.split(" ")]
        elif key == "file":
            self.files.append((spelled(front).decode(), spelled(behind)))
        elif key == "|":
            name, content = self.files[-1]
            self.files[-1] = (name, content + spelled(rest) + b"\n")
        elif key == "input":
            self.input += spelled(rest)
        elif key == "dice":
            self.dice.append((int(front), spelled(behind)))
        elif key == "tape":
            self.tapes.append((spelled(front).decode(), spelled(behind)))
        elif key == "absent":
            self.absent.append(spelled(rest).decode())
        elif key == "plugin":
            name, key_id, salt = behind.split(" ")
            told = {"seat": int(front), "name": spelled(name).decode(), "key_id": spelled(key_id).decode(), "salt": int(salt)}
            self.plugins.append({**told, "status": ("v2", "ok"), "key_ids": {}, "fails": set()})
        elif key == "says":
            self.plugins[-1]["status"] = (spelled(front).decode(), spelled(behind).decode())
        elif key == "key":
            self.plugins[-1]["key_ids"][int(front)] = spelled(behind).decode()
        elif key == "fails" and front == "plugin":
            self.plugins[-1]["fails"].update(map(int, behind.split(" ")))
        elif key == "fails":
            self.fails.setdefault(front, set()).update(map(int, behind.split(" ")))
        elif key in ("room", "step"):
            setattr(self, key, int(rest))
        else:
            raise ValueError(f"no such key: {key}")

    def fails_of(self, name):
        return self.fails.get(name, set())

    def links(self):
        return [
            (it["seat"], Plugin(it["name"], it["key_id"], it["salt"], it["status"], it["key_ids"], Numbered(f"plugin {it['name']}", it["fails"])))
            for it in self.plugins
        ]

    def answer(self):
        """The line of what the call leaves."""
        source = Source(self.input, self.fails_of("input"))
        output, errors = Sink("output", self.room, self.fails_of("output")), Sink("errors", ERRORS_ROOM, self.fails_of("errors"))
        dice = [(seat, Dice(seat, content, self.fails_of(f"dice:{seat}"))) for seat, content in self.dice]
        tapes = [(name, Tape(content, *(self.fails_of(f"{calls}:{name}") for calls in ("reads", "writes", "settles")))) for name, content in self.tapes]
        links = self.links()
        world = World(self.files, dice, tapes, self.fails_of("files"), links)
        if self.step != 1 and (source.fails or output.fails or errors.fails or self.room != ROOM):
            raise ValueError(f"{self.name}: only with one byte a call is it known which call fails")
        status = run(self.words, world, source, output, errors)
        line = f"{self.name} status={status} output={printed(output.held)} errors={printed(errors.held)}"
        line += f" left={len(source.content) - source.taken} faults=" + ":".join(str(it.faults) for it in (source, output, errors, world))
        line += "".join(f" dice:{seat}={len(it.content)}:{it.faults}" for seat, it in dice)
        names = [name for name, _ in self.tapes] + self.absent
        line += "".join(f" tape:{name}={left_of(world.tapes, name)}" for name in names)
        line += "".join(f" link:{seat}:{name}={program}" for seat, name, program in world.asked)
        return line + "".join(f" plugin:{seat}:{it.name}={it.log.made}:{it.log.faults}" for seat, it in links)


def left_of(tapes, name):
    """What is left of the first tape of a name."""
    found = next((tape for other, tape in tapes if other == name), None)
    return f"{printed(found.content)}:{found.faults}" if found else "out"


def printed(data):
    if len(data) > MOST_PRINTED:
        return f"{len(data)}:{hashlib.sha256(data).hexdigest()}"
    return data.hex() or "-"


def cases_of(text):
    found = []
    for line in text.split("\n"):
        key, _, rest = line.partition(" ")
        if key == "case":
            found.append(Case(rest))
        elif line and not line.startswith("#"):
            found[-1].add(key, rest)
    return found


def answers(text):
    return "".join(case.answer() + "\n" for case in cases_of(text))


def main():
    if not sys.argv[1:]:
        sys.stdout.write(answers(sys.stdin.read()))
        return 0
    wanted = answers((CRATE / "stdin").read_text())
    if sys.argv[1:] == ["write"]:
        (CRATE / "stdout").write_text(wanted)
        return 0
    stored = (CRATE / "stdout").read_text()
    differing = [pair for pair in zip(wanted.split("\n"), stored.split("\n")) if pair[0] != pair[1]]
    if wanted != stored:
        print("not so:", *(differing[0] if differing else ("the number of answers",)), sep="\n", file=sys.stderr)
        return 1
    print(f"the stored answers of test_run are those of reference/ for {wanted.count(chr(10))} calls")
    return 0


if __name__ == "__main__":
    sys.exit(main())
