"""What is said of a file: by explain, the front end and the bridges in this process, and by programs."""
import base64
import binascii
import contextlib
import functools
import importlib.machinery
import importlib.util
import io
import os
import re
import signal
import subprocess
import sys
from collections.abc import Iterable, Iterator
from pathlib import Path

import explanations
import plain_files
from call_words import Call
from masking_typos import Case
from reference import configuration
from support import PATIENCE as CALL, TOP

# No so many characters in a row of a secret may be shown.
RUN = 6


def loaded(path: Path):
    """A program of Python without `.py`, as a module."""
    loader = importlib.machinery.SourceFileLoader(path.name.replace("-", "_"), str(path))
    module = importlib.util.module_from_spec(importlib.util.spec_from_loader(loader.name, loader))
    loader.exec_module(module)
    return module


# ---- the search


def forms_of(secret: str | bytes) -> str:
    """A secret as it stands, its bytes, and these in base64 and in hex, in one text. (What is searched for is written here anew, and
    isn't what the masking takes for a form.)"""
    return "\n".join(form for data in data_of(secret) for form in forms_of_bytes(data))


def data_of(secret: str | bytes) -> Iterator[bytes]:
    """A secret's bytes, and those that it is the base64 of."""
    data = secret if isinstance(secret, bytes) else secret.encode()
    yield data
    with contextlib.suppress(binascii.Error, ValueError):
        yield base64.b64decode(data, validate=True)


def forms_of_bytes(data: bytes) -> Iterator[str]:
    yield from (data.decode("latin-1"), data.decode(errors="replace"), repr(data)[2:-1], "".join(map("\\x{:02x}".format, data)))
    yield from (base64.b64encode(data).decode(), base64.urlsafe_b64encode(data).decode())
    yield from (data.hex(), data.hex().upper())


# Bytes one by one, as an answer may show them.
ROW = re.compile(r"(?:[0-9a-fA-F]{1,3}[ ,:]{1,2}){5}")
ONE_BY_ONE = ((" ", "{:02x}"), (":", "{:02x}"), (" ", "{:02X}"), (":", "{:02X}"), (" ", "{}"), (", ", "{}"), (",", "{}"))


def rows_of(secret: str | bytes) -> Iterator[str]:
    """Each six bytes of a secret, one by one in hex and as numbers."""
    for data in data_of(secret):
        for between, form in ONE_BY_ONE:
            yield from (between.join(map(form.format, data[at : at + RUN])) for at in range(len(data) - RUN + 1))


class Search:
    """What was searched, and each leak as a line."""

    def __init__(self):
        self.passed, self.leaks = 0, []

    def judge(self, what: str, secrets: Iterable[str | bytes], outputs: Iterable[tuple[str, str]]) -> None:
        outputs = list(outputs)
        text = "\n\0".join(output for _name, output in outputs)
        runs = {text[at : at + RUN] for at in range(len(text) - RUN + 1)}
        held = "\n".join(map(forms_of, secrets))
        shown = {run for at in range(len(held) - RUN + 1) if (run := held[at : at + RUN]) in runs and "\n" not in run}
        if ROW.search(text):
            shown |= {row for secret in secrets for row in rows_of(secret) if row in text}
        # (an error of Python's own shows nothing, and is none that a user is to see)
        shown = shown or ({FAULT} if FAULT in text else set())
        if not shown:
            self.passed += bool(outputs)
            return
        name, output = next((name, output) for name, output in outputs if any(run in output for run in shown))
        place = next(line for line in output.split("\n") if any(run in line for run in shown))
        self.leaks.append(f"{what}: {name}: {place[:300]}")


# ---- what is said

# Seconds of a processor in which a file of these sizes is explained, which takes a hundredth of one; more is a fault.
PATIENCE = 20


def in_time(answer) -> list[str]:
    """An answer, or an error where nobody would wait for it."""
    before = signal.signal(signal.SIGPROF, signal.default_int_handler)
    signal.setitimer(signal.ITIMER_PROF, PATIENCE)
    try:
        return answer()
    except KeyboardInterrupt:
        raise TimeoutError(f"no answer in {PATIENCE} seconds of a processor") from None
    finally:
        signal.setitimer(signal.ITIMER_PROF, 0)
        signal.signal(signal.SIGPROF, before)


FAULT = "a fault of its own"


def guarded(answer) -> list[str]:
    """The answer's lines; where a program would end by an error of Python, what it prints of that."""
    try:
        return answer()
    except SystemExit:
        return []
    except Exception as error:  # (whatever it is: the program would end by it)
        told = io.StringIO()
        with contextlib.redirect_stderr(told):
            sys.excepthook(type(error), error, error.__traceback__)
        return [FAULT, told.getvalue()]


class OwnWords:
    """What `explain` may show whatever a call's files hold, asked for runs of RUN characters without an end of line: those of its
    sources, and of the names in the call."""

    def __init__(self, call: Call):
        self.names = "\n".join([*(name for name, _ in call.files()), *(program for _, program in call.plugins())])

    @staticmethod
    @functools.cache
    def of_sources() -> frozenset[str]:
        text = plain_files.own_texts()
        return frozenset(text[at : at + RUN] for at in range(len(text) - RUN + 1))

    def __contains__(self, run: str) -> bool:
        return run in (self.of_sources() if len(run) == RUN else plain_files.own_texts()) or run in self.names


class Said:
    """A room with files for calls, and what calls over them print."""

    def __init__(self, room: Path, program: Path | None):
        self.top, self.room, self.program = TOP, room, program
        self.explain = loaded(TOP / "help" / "explain")
        # (what a call reads and looks through once is kept here, where thousands are made)
        explanations.explainer = lambda: self.explain
        plain_files.own_words = OwnWords
        # (as a program it says by its own words what ended it)
        self.within(self.explain.main, [])
        os.chdir(room)
        for name in ("identity.yaml", "kms.yaml"):
            (room / name).write_bytes((TOP / "examples" / name).read_bytes())
        (room / "etcd.json").write_text(ETCD, encoding="utf-8")
        (room / "store").write_bytes(b"KRSTORE2")

    def told(self, line: str, *words: str) -> tuple[str, str]:
        """What explain and the front end say of a line, for a call of these words."""
        call = Call(words)
        front = guarded(lambda: explanations.after(call, 3, f"a plugin's line\n{line}\n"))
        told = guarded(lambda: in_time(lambda: self.explain.answer_to(line, call).splitlines()))
        return f"explain {line[:40]!r} {' '.join(words)}", "\n".join(front + told)

    def within(self, main, words: list[str]) -> str:
        """What a program of Python prints, run in this process."""
        out = io.TextIOWrapper(io.BytesIO(), encoding="utf-8", errors="replace", write_through=True)
        handlers = [signal.getsignal(one) for one in (signal.SIGINT, signal.SIGTERM)]
        with contextlib.redirect_stdout(out), contextlib.redirect_stderr(out):
            fault = guarded(lambda: [str(main(words))])
        for one, handler in zip((signal.SIGINT, signal.SIGTERM), handlers):
            signal.signal(one, handler)
        return out.buffer.getvalue().decode(errors="replace") + "\n".join(fault)

    def of_configuration(self, case: Case, number: int) -> Iterator[tuple[str, str]]:
        """What is said of a configuration in each place of a call where one may be named."""
        (self.room / "c").write_bytes(case.data)
        line = line_of(case.data)
        if line:
            yield self.told(line, "check", "--config", "c")
            yield self.told(line, "judge", "--store", "store", "--replica", "identity.yaml", "--replica", "c", "--reload", "0=c")
        for at in range(3):
            yield self.told(*OTHER_LINES[(3 * number + at) % len(OTHER_LINES)])
        text = case.data.decode(errors="replace")
        held = [one for one in text.split("\n") if case.secrets[0][:RUN] in one] or [text]
        yield self.told(held[number % len(held)], "check", "--config", "c")
        if number % 4 == 0:
            yield "kms-bridge --into", self.within(kms_bridge(), ["--into", "d", "--config", "c"])
        if number % 8 == 1:
            (self.room / "s").unlink(missing_ok=True)
            yield "etcd-to-store --config", self.within(etcd_to_store(), ["--json", "etcd.json", "--store", "s", "--map", "s.map", "--config", "c"])
            (self.room / "s.map").unlink(missing_ok=True)

    def run(self, words: list[object], data: bytes = b"") -> str:
        """What a program prints, on both streams."""
        environment = {**os.environ, "KMSREST_EXPLAIN": "1"}
        done = subprocess.run([str(word) for word in words], input=data, capture_output=True, timeout=CALL, check=False, env=environment)
        return (done.stdout + done.stderr).decode(errors="replace")

    def front_end(self) -> list[object]:
        """The front end over the built program, as ./kmsrest calls it."""
        return [TOP / "front" / "around", self.program]

    def by_programs(self, case: Case) -> Iterator[tuple[str, str]]:
        (self.room / "c").write_bytes(case.data)
        line = line_of(case.data) or "kmsrest: refused 12 NoProvider"
        yield "./kmsrest explain", self.run([TOP / "kmsrest", "explain", line, "check", "--config", "c"])
        yield "./kmsrest explain of a line of the file", self.run([TOP / "kmsrest", "explain", case.data.decode(errors="replace").replace("\0", "")[:2000]])
        yield "kms-bridge", self.run([TOP / "bridges" / "kms-bridge", "--into", "d", "--config", "c"])
        yield "etcd-to-store", self.run([TOP / "bridges" / "etcd-to-store", "--json", "etcd.json", "--store", "none/s", "--config", "c"])
        if self.program and not named(case):
            yield "check by the front end", self.run([*self.front_end(), "check", "--config", "c"])
            yield "encrypt by the front end", self.run([*self.front_end(), "encrypt", "--config", "c", "--resource", "secrets", "--path", "/s"], b"")
            yield "list of it as a store", self.run([*self.front_end(), "list", "--store", "c"])
            yield "fleet of it", self.run([*self.front_end(), "fleet", "--file", "c", "--store", "store"])


def named(case: Case) -> bool:
    """Whether a secret is a name in a configuration that is in order: the program prints names."""
    try:
        entries = configuration.read(case.data)
    except configuration.Breach:
        return False
    names = [provider[1] for _patterns, providers in entries for provider in providers]
    return any(secret in name or name in secret for secret in case.secrets for name in names if len(name) >= RUN)


def line_of(data: bytes) -> str:
    """What the program says of a configuration; nothing where it is in order."""
    try:
        configuration.read(data)
    except configuration.Breach as no:
        found = "limit %s %d" % configuration.LIMITS[no.first] if no.code == 39 else f"text {no.code} {no.first} {no.second}"
        return f"kmsrest: {found}"
    return ""


def kms_bridge():
    from kms_bridge.main import main

    return main


def etcd_to_store():
    from etcd_bridge.importing import main

    return main


SECRETS_OF = ("--resource", "secrets", "--path", "/s")
# Lines whose explanation looks at the file, wherever a call may name one.
OTHER_LINES = (
    ("kmsrest: text 44 p", "encrypt", "--config", "c", *SECRETS_OF),
    ("kmsrest: text 21 3 1", "plan", "--from", "c", "--to", "c", "--replicas", "2"),
    ("kmsrest: text 22 0 0", "verify", "--config", "c", "--store", "store"),
    ("kmsrest: text 33 0 0", "check", "--config", "c"),
    ("kmsrest: text 20 0 0", "check", "--config", "c"),
    ("kmsrest: refused 12 NoProvider", "decrypt", "--config", "c", *SECRETS_OF),
    ("kmsrest: refused 4 BadTag", "decrypt", "--config", "c", *SECRETS_OF),
    ("kmsrest: usage: kmsrest COMMAND OPTIONS", "check", "--config", "c", "--resuorce", "secrets"),
    ("kmsrest: usage: kmsrest COMMAND OPTIONS", "put", "--config", "c"),
    ("kmsrest: fault files 1", "check", "--config", "c"),
    ("kmsrest: fault files 1", "encrypt", "--config", "c", *SECRETS_OF, "--plugin", "p=./c"),
    ("kmsrest: fault plugin p", "encrypt", "--config", "c", *SECRETS_OF, "--plugin", "p=./c"),
    ("kmsrest: text 41 0", "list", "--store", "c"),
    ("kmsrest: text 42 8", "list", "--store", "c"),
    ("kmsrest: text 47 1", "fleet", "--file", "c", "--store", "store"),
    ("kmsrest: text 47 9", "fleet", "--file", "c", "--store", "store"),
    ("kmsrest: text 48 /s", "rewrite", "--config", "c", "--store", "store"),
    ("kmsrest: text 51 /s", "rewrite", "--config", "c", "--store", "store"),
    ("kmsrest: text 49 1 unread 0 secrets aescbc:key1", "judge", "--store", "store", "--replica", "c", "--replica", "c", "--reload", "0=c"),
    ("drops-stored /s aescbc:key1", "judge", "--store", "store", "--replica", "c", "--reload", "0=c"),
    ("kmsrest: clash secrets aescbc:key1", "plan", "--from", "c", "--to", "c", "--replicas", "2"),
    ("etcd-to-store: the configuration c: text 21 3 1", "bridges/etcd-to-store", "--config", "c"),
    ("kms-bridge: c: it can't be read as YAML at line 3", "kms-bridge", "--into", "d", "--config", "c"),
)


def encoded(data: bytes) -> str:
    return base64.b64encode(data).decode()


ETCD = (
    '{"header":{"cluster_id":7,"revision":9},"count":1,"kvs":[{"key":"%s","value":"%s","create_revision":3,"mod_revision":3}]}'
    % (encoded(b"/registry/secrets/d/s"), encoded(b"k8s:enc:aescbc:v1:key1:" + bytes(48)))
)
