"""Calls that fail as a new user's do, by the front end: what must be told below the program's own line, and beside each a call of
which nothing may be told."""
import json
import os
import pty
import resource
import signal
import socket
import stat
import subprocess
from collections.abc import Callable
from dataclasses import dataclass, field
from pathlib import Path

from support import PATIENCE, TOP, stood_on

AROUND = TOP / "front" / "around"
SECRETS = "--resource secrets --path /registry/secrets/d/s"
NOBODY = 65534


@dataclass(frozen=True)
class Call:
    """A call by the front end: its words, the program's own line and status, what must be told, and words of which nothing may be."""

    what: str
    words: str
    line: str
    told: tuple[str, ...]
    silent: str = ""
    before: Callable[[Path], object] | None = None
    options: dict = field(default_factory=dict)
    status: int = 3


def made(name: str, content: bytes, mode: int = 0o644) -> Callable[[Path], None]:
    def make(room: Path) -> None:
        (room / name).write_bytes(content)
        (room / name).chmod(mode)

    return make


def pipe_at(name: str) -> Callable[[Path], None]:
    return lambda room: (room / name).exists() or os.mkfifo(room / name)


def socket_at(name: str) -> Callable[[Path], None]:
    """A socket that nobody listens at any more."""

    def make(room: Path) -> None:
        if not (room / name).exists():
            with socket.socket(socket.AF_UNIX) as made:
                made.bind(str(room / name))

    return make


def as_nobody(room: Path) -> None:
    """What a user without rights finds: a file and a folder of another's alone."""
    (room / "closed").mkdir(exist_ok=True)
    (room / "closed" / "c.yaml").write_bytes((room / "identity.yaml").read_bytes())
    for name in ("mine.yaml", "mine"):
        (room / name).write_bytes((room / ("identity.yaml" if name.endswith("yaml") else "STORE")).read_bytes())
        (room / name).chmod(0o600)
    (room / "readable").write_bytes((room / "STORE").read_bytes())
    (room / "readable").chmod(0o644)
    (room / "closed").chmod(0o700)
    room.chmod(0o755)


def is_root() -> bool:
    return os.geteuid() == 0


BY_NOBODY = {"user": NOBODY, "group": NOBODY, "extra_groups": []}
USAGE = "kmsrest: usage: kmsrest COMMAND OPTIONS"
FILES = "kmsrest: fault files 1"
READS = "list --store STORE"

CALLS = [
    Call("a socket in the place of a plugin's program", f"encrypt --config kms.yaml {SECRETS} --plugin p=unix:///run/p.sock", FILES, ("unix:///run/p.sock (--plugin p)", "it is an endpoint", "kms-bridge --into"), f"encrypt --config kms.yaml {SECRETS} --plugin p=./mask.py", status=4),
    Call("a socket's path in its place", f"encrypt --config kms.yaml {SECRETS} --plugin p=./SOCKET", FILES, ("./SOCKET (--plugin p)", "it is a socket", "kms-bridge --into"), f"encrypt --config kms.yaml {SECRETS} --plugin p=./mask.py", socket_at("SOCKET"), status=4),
    Call("a pipe as a plugin", f"encrypt --config kms.yaml {SECRETS} --plugin p=./PIPE", FILES, ("./PIPE (--plugin p)", "a device or a pipe"), "", pipe_at("PIPE"), status=4),
    Call("no program for a plugin", f"encrypt --config kms.yaml {SECRETS}", "kmsrest: text 44 p", ("kms.yaml (--config), line 9", "no --plugin was given", "--plugin p=PROGRAM", "kms-bridge --into"), f"encrypt --config identity.yaml {SECRETS}"),
    Call("no API servers", "plan --from identity.yaml --to identity.yaml --replicas 0", USAGE, ("--replicas 0 is no rollout", "1 to 16"), "plan --from identity.yaml --to identity.yaml --replicas 1", status=2),
    Call("a number that is none", "plan --from identity.yaml --to identity.yaml --replicas three", USAGE, ("--replicas `three` is no number",), status=2),
    Call("a configuration that plan doesn't show", "plan --from identity.yaml --to identity.yaml --replicas 2 --show turn", USAGE, ("--show `turn` is none of wide and turned", "did you mean turned?"), "plan --from identity.yaml --to identity.yaml --replicas 2 --show turned", status=2),
    Call("a path without its first /", "get --config identity.yaml --store STORE --path a", "kmsrest: absent a", ("none of the 2 rows", "--path /a, which is there"), "get --config identity.yaml --store STORE --path /a", status=1),
    Call("a store as a configuration", "check --config STORE", "kmsrest: text 21 1 1", ("STORE (--config), line 1", "it is a store of kmsrest", "--config names the EncryptionConfiguration"), "check --config identity.yaml"),
    Call("a fleet file as a configuration", "check --config FLEET", "kmsrest: text 23 0 0", ("`apiVersion`",), before=made("FLEET", b"fleet 1: x\n")),
    Call("a configuration as a store", "list --store identity.yaml", "kmsrest: text 41 0", ("identity.yaml (--store)", "as a configuration does"), READS),
    Call("a byte order mark", "check --config bom.yaml", "kmsrest: text 21 1 1", ("bom.yaml (--config), line 1", "a byte order mark", "sed -i"), "check --config identity.yaml", before=lambda room: made("bom.yaml", b"\xef\xbb\xbf" + (room / "identity.yaml").read_bytes())(room)),
    Call("UTF-16", "check --config wide.yaml", "kmsrest: text 21 0 5", ("wide.yaml (--config), line 1", "UTF-16", "iconv"), before=lambda room: made("wide.yaml", (room / "identity.yaml").read_text().encode("utf-16"))(room)),
    Call("output that nobody takes", READS, "kmsrest: fault output 1", ("| head", "sed -n 1,10p"), READS, options={"stdout": "/dev/full"}, status=4),
    # ---- what `fault files` is of
    Call("a folder as a configuration", "check --config .", FILES, ("a folder", "name a file in it"), status=4),
    Call("a path through a file", "check --config identity.yaml/x", FILES, ("identity.yaml/x (--config)", "no folder"), status=4),
    Call("no right to read a configuration", "check --config mine.yaml", FILES, ("mine.yaml (--config)", "no right to read it", "run as its owner"), "check --config identity.yaml", as_nobody, BY_NOBODY, 4),
    Call("no right to enter a folder", "check --config closed/c.yaml", FILES, ("closed/c.yaml (--config)", "folder may not be entered"), "", as_nobody, BY_NOBODY, 4),
    Call("no right to read a store", "list --store mine", FILES, ("mine (--store)", "no right to read it"), "list --store readable", as_nobody, BY_NOBODY, 4),
    Call("no right to write a store", "put --config identity.yaml --store readable --resource secrets --path /s", FILES, ("readable (--store)", "no right to write it"), "list --store readable", as_nobody, BY_NOBODY, 4),
    Call("no right to make a store", "put --config identity.yaml --store new --resource secrets --path /s", FILES, ("new (--store)", "no right to make it in ."), "list --store readable", as_nobody, BY_NOBODY, 4),
    Call("a pipe as a store", "list --store PIPE", FILES, ("PIPE (--store)", "a device, a pipe or a socket"), READS, pipe_at("PIPE"), status=4),
    Call("a link to nothing as a store", "put --config identity.yaml --store LINK --resource secrets --path /s", FILES, ("LINK (--store)", "a link to nowhere"), READS, lambda room: (room / "LINK").is_symlink() or (room / "LINK").symlink_to("nowhere"), status=4),
    Call("a store in no folder", "put --config identity.yaml --store no/store --resource secrets --path /s", FILES, ("no/store (--store)", "its folder no isn't there", "mkdir -p no"), READS, status=4),
    Call("a plugin that isn't executable", f"encrypt --config kms.yaml {SECRETS} --plugin p=./plain", FILES, ("./plain (--plugin p)", "chmod +x"), f"encrypt --config kms.yaml {SECRETS} --plugin p=./mask.py", status=4),
    Call("a plugin whose first line names nothing", f"encrypt --config kms.yaml {SECRETS} --plugin p=./bad", FILES, ("./bad (--plugin p)", "/usr/bin/pyhton3, which isn't there"), "", made("bad", b"#!/usr/bin/pyhton3\n", 0o755), status=4),
    Call("a plugin without a slash", f"encrypt --config kms.yaml {SECRETS} --plugin p=mask.py", FILES, ("no folder of PATH has it", "--plugin p=./mask.py"), status=4),
    # ---- words
    Call("a command misspelled", "veryfi --config identity.yaml --store STORE", USAGE, ("`veryfi` is no command; did you mean verify?",), "verify --config identity.yaml --store STORE", status=2),
    Call("an option misspelled", "check --confg identity.yaml", USAGE, ("there is no option --confg; did you mean config?",), "check --config identity.yaml", status=2),
    Call("another command's option", "check --config identity.yaml --store STORE", USAGE, ("check has no option --store",), status=2),
    Call("an option without its dashes", "check config identity.yaml", USAGE, ("`config` is no option", "put -- before"), status=2),
    Call("a file without its option", "check identity.yaml", USAGE, ("`identity.yaml` is a file, and no option stands before it", "write --config identity.yaml"), "check --config identity.yaml", status=2),
    Call("a word that was pasted", "check --config identity.yaml c2VjcmV0IG9mIHRoZSBjb25m", USAGE, ("`c2Vj`..", "is no option and no option's value"), "check --config identity.yaml", status=2),
    Call("a resource with a capital", "check --config identity.yaml --resource Secrets", USAGE, ("--resource `Secrets` is no resource; did you mean secrets?",), "check --config identity.yaml --resource secrets", status=2),
    Call("an option that is missing", "get --config identity.yaml --path /a", USAGE, ("get wants --store FILE",), status=2),
    Call("an option without a value", "check --config", USAGE, ("--config has no value", "write --config FILE"), status=2),
    Call("a resource with its group first", "check --config identity.yaml --resource apps/deployments", USAGE, ("--resource `apps/deployments` is no resource",), "check --config identity.yaml --resource secrets", status=2),
    # ---- what stands on standard output
    Call("a verdict", "judge --store SEALED --replica whole.yaml --reload 0=identity.yaml", "", ("doesn't read what is stored at /a by aescbc:key1", "rewrite first"), "judge --store SEALED --replica whole.yaml --reload 0=whole.yaml", status=1),
    Call("objects that can't be read", "verify --config identity.yaml --store SEALED", "", ("the lines with `refused` name them",), "verify --config identity.yaml --store STORE", status=1),
]


class FrontEnd:
    """Calls by front/around, which ./kmsrest makes, over the built program, or over one that stands in and says the case's line."""

    def __init__(self, room: Path, kmsrest: Path | None, tell: Callable[[str, list[str], str], None]):
        self.room, self.kmsrest, self.tell = room, kmsrest, tell

    def program(self, line: str, status: int) -> Path:
        if self.kmsrest:
            return self.kmsrest
        path = self.room / "stands-in"
        path.write_text(f"#!/bin/sh\n[ -z '{line}' ] || echo '{line}' >&2\nexit {status}\n")
        path.chmod(0o755)
        return path

    def run(self, call: Call, words: str, line: str, status: int, asked: str | None = "1") -> subprocess.CompletedProcess:
        environment = {name: value for name, value in os.environ.items() if name != "KMSREST_EXPLAIN"} | ({"KMSREST_EXPLAIN": asked} if asked else {})
        options = {**call.options, "stdout": open(call.options["stdout"], "wb") if "stdout" in call.options else subprocess.PIPE}
        try:
            return subprocess.run(
                [AROUND, self.program(line, status), *words.split(" ")], cwd=self.room, env=environment, input="", text=True, errors="replace", stderr=subprocess.PIPE, timeout=PATIENCE, check=False, **options
            )
        finally:
            if "stdout" in call.options:
                options["stdout"].close()

    def judge(self, call: Call) -> None:
        """The program's own line first, then what must be told; nothing where nobody asked, or where all is well."""
        if call.options is BY_NOBODY and not (is_root() and self.can_enter()):
            return
        if call.before:
            call.before(self.room)
        done = self.run(call, call.words, call.line, call.status)
        first, *told = done.stderr.splitlines() if call.line else ["", *done.stderr.splitlines()]
        faults = [] if (done.returncode, first) == (call.status, call.line) else [f"status {done.returncode} and `{first}`"]
        faults += [f"`{text}` isn't told" for text in call.told if text not in "\n".join(told)]
        self.tell(f"{call.what}, by the front end", faults, done.stderr)
        unasked = self.run(call, call.words, call.line, call.status, "0")
        self.tell(f"{call.what}, where nobody asked", [] if unasked.stderr.splitlines() == ([call.line] if call.line else []) else ["more is told"], unasked.stderr)
        if call.silent:
            done = self.run(Call("", "", "", (), options=BY_NOBODY if call.options is BY_NOBODY else {}), call.silent, "", 0)
            told = [line for line in done.stderr.splitlines() if line not in ("fresh", "stale")]
            self.tell(f"{call.what}, and beside it a call that is well", [] if (done.returncode, told) == (0, []) else [f"status {done.returncode}"], done.stderr)

    def can_enter(self) -> bool:
        """Whether a user without rights gets to the program and to the front end at all."""
        needed = [self.room, AROUND, self.kmsrest or self.room]
        return all(one.stat().st_mode & stat.S_IXOTH for path in needed for one in (path, *path.parents))

    def all(self) -> None:
        self.room.chmod(0o755)
        for call in CALLS:
            self.judge(call)
        self.remark()
        self.terminal()

    def remark(self) -> None:
        """A path without its first / is remarked though all went well, and whether or not explanations are wanted."""
        for path, wanted in (("registry/secrets/d/s", True), ("/registry/secrets/d/s", False)):
            words = f"put --config identity.yaml --store PUT --resource secrets --path {path}"
            done = self.run(Call("", "", "", ()), words, "", 0, "0")
            self.tell(f"put at {path}", [] if ("remark: " in done.stderr) == wanted and not done.returncode else ["a remark too much or too few"], done.stderr)

    def terminal(self) -> None:
        """On a terminal a line is explained though no variable asks for it."""
        for asked, wanted in ((None, True), ("0", False)):
            master, slave = pty.openpty()
            environment = {name: value for name, value in os.environ.items() if name != "KMSREST_EXPLAIN"} | ({"KMSREST_EXPLAIN": asked} if asked else {})
            words = [AROUND, self.program("kmsrest: text 40 none", 3), "check", "--config", "none"]
            subprocess.run(words, cwd=self.room, env=environment, stdin=subprocess.DEVNULL, stdout=subprocess.DEVNULL, stderr=slave, timeout=PATIENCE, check=False)
            os.close(slave)
            told = stood_on(master).decode()
            self.tell(f"on a terminal, KMSREST_EXPLAIN {asked}", [] if ("`none` isn't there" in told) == wanted and "text 40 none" in told else ["told otherwise"], told)


# ---- what stands around a call


SCRIPTS = {
    "a status of its own": ("exit 5", 5, ""),
    "a signal": ("kill -KILL $$", -9, ""),
    "SIGTERM": ("kill -TERM $$", -15, ""),
    "lines of 200,000 bytes": ("head -c 200000 /dev/zero | tr '\\0' x >&2; echo last >&2; exit 4", 4, "x" * 200000 + "last\n"),
    "input and output": ("cat; exit 0", 0, ""),
}


def around(room: Path, tell: Callable[[str, list[str], str], None]) -> None:
    """The front end's child: its status or signal, its streams, and that nobody waits for what it leaves."""
    for what, (script, status, errors) in SCRIPTS.items():
        done = subprocess.run([AROUND, "/bin/sh", "-c", script], cwd=room, input="given", text=True, capture_output=True, timeout=PATIENCE, check=False)
        faults = [] if (done.returncode, done.stderr) == (status, errors) else [f"status {done.returncode}, {len(done.stderr)} bytes of errors"]
        faults += [] if done.stdout == ("given" if "cat" in script else "") else ["other output"]
        tell(f"around a program: {what}", faults, done.stderr[:300])
    left = "sleep 9999 >/dev/null & echo $! >left; echo one >&2; exit 1"
    done = subprocess.run([AROUND, "/bin/sh", "-c", left], cwd=room, text=True, capture_output=True, timeout=PATIENCE, check=False)
    number = int((room / "left").read_text())
    lives = Path(f"/proc/{number}").exists()
    os.kill(number, signal.SIGKILL)
    tell("around a program that leaves a process", [] if (done.returncode, done.stderr, lives) == (1, "one\n", True) else ["it was waited for"], done.stderr)
    with open("/dev/full", "wb") as full:
        done = subprocess.run([AROUND, "/bin/sh", "-c", "echo x >&2; exit 1"], stderr=full, check=False, timeout=PATIENCE)
    tell("a line that can't be written is status 4", [] if done.returncode == 4 else [f"status {done.returncode}"], "")
    child = subprocess.Popen([AROUND, "/bin/sh", "-c", "trap 'exit 7' TERM; echo ready; while :; do sleep 0.1; done"], stdout=subprocess.PIPE)
    child.stdout.readline()
    child.terminate()
    tell("SIGTERM is handed on", [] if child.wait(timeout=PATIENCE) == 7 else ["it wasn't"], "")
    child.stdout.close()
    limits = lambda: resource.setrlimit(resource.RLIMIT_CORE, (0, 0))  # noqa: E731
    done = subprocess.run([AROUND, "/bin/sh", "-c", "ulimit -c; env"], env={"A": "b c", "KMSREST_PIPE": "ignored"}, capture_output=True, text=True, preexec_fn=limits, check=False, timeout=PATIENCE)
    lines = [line for line in done.stdout.splitlines() if not line.startswith(("PWD=", "SHLVL=", "_=", "OLDPWD="))]
    tell("limits and environment stay", [] if lines == ["0", "A=b c"] else ["they are others"], done.stdout)


# ---- bridges


def bridges(room: Path, tell: Callable[[str, list[str], str], None], etcd_json: str) -> None:
    """A bridge explains its own lines, where it is asked to; a probe of nobody ends at once; many reasons of one cause are summed up."""
    (room / "etcd.json").write_text(etcd_json)
    (room / "five.yaml").write_text((room / "whole.yaml").read_text().replace("AAECAwQFBgcICQoLDA0ODxAREhMUFRYXGBkaGxwdHh8=", "aGVsbG8="))
    words = [TOP / "bridges" / "etcd-to-store", "--json", "etcd.json", "--store", "imported"]
    first = "etcd-to-store: the configuration five.yaml: text 34 0 0"
    for asked, wanted in (("1", True), ("0", False)):
        done = subprocess.run([*words, "--config", "five.yaml"], cwd=room, env={**os.environ, "KMSREST_EXPLAIN": asked}, capture_output=True, text=True, timeout=PATIENCE, check=False)
        if "cryptography, which isn't here" in done.stderr:
            break
        so = done.stderr.startswith(first + "\n") and ("five.yaml (--config), line 10" in done.stderr and "secret has 5 bytes" in done.stderr) == wanted
        tell(f"a bridge's own text, KMSREST_EXPLAIN={asked}", [] if so else ["told otherwise"], done.stderr)
    done = subprocess.run(words, cwd=room, capture_output=True, text=True, timeout=PATIENCE, check=False)
    lines = done.stderr.splitlines()
    so = len(lines) == 12 and sum("is unknown" in line for line in lines) == 10 and "(and 290 more: places that are unknown" in done.stderr
    tell("300 unknown places are one cause", [] if so else [f"{len(lines)} lines"], "\n".join(lines[-3:]))
    few = json.loads(etcd_json)
    (room / "few.json").write_text(json.dumps({**few, "count": 5, "kvs": few["kvs"][:5]}))
    done = subprocess.run([words[0], "--json", "few.json", *words[3:]], cwd=room, capture_output=True, text=True, timeout=PATIENCE, check=False)
    lines = done.stderr.splitlines()
    so = len(lines) == 6 and sum("is unknown" in line for line in lines) == 5 and "more:" not in done.stderr
    tell("and five are told one by one", [] if so else [f"{len(lines)} lines"], done.stderr)
    # (it would wait so long for a plugin that may come)
    waits = ["--timeout", f"{2 * PATIENCE}s"]
    done = subprocess.run([TOP / "bridges" / "kms-bridge", *waits, "--endpoint", f"unix://{room}/nobody.sock", "--probe"], capture_output=True, text=True, timeout=PATIENCE, check=False)
    if "no module" in done.stderr:
        return
    so = done.returncode == 1 and f"no plugin listens at {room}/nobody.sock: No such file" in done.stderr
    tell("a probe of nobody", [] if so else [f"status {done.returncode}"], done.stderr)
