"""Plugins that print what is no reply, or write to their standard error, and those of examples that stand around one."""
import json
import os
import shutil
from pathlib import Path

from support import PATH, TOP, Checks, Ended, call, kmsrest_program

KMS = TOP / "examples" / "kms.yaml"
PLUGINS = TOP / "examples" / "plugins"
MASK = PLUGINS / "mask.py"
FAULT = "kmsrest: fault plugin p 1"
# mask.py's answers, each given as the reply to the request behind the one that it answers, from the first decrypt on: before
# that one's stands a line for a log.
SHIFTED = f"""#!/usr/bin/python3
import json, subprocess, sys
plugin = subprocess.Popen(["{MASK}"], stdin=subprocess.PIPE, stdout=subprocess.PIPE)
waiting = None
for line in sys.stdin.buffer:
    plugin.stdin.write(line)
    plugin.stdin.flush()
    reply = plugin.stdout.readline()
    if waiting is None and json.loads(line)["call"] == "decrypt":
        waiting = b"token renewed\\n"
    if waiting is not None:
        waiting, reply = reply, waiting
    sys.stdout.buffer.write(reply)
    sys.stdout.buffer.flush()
"""


def _make(program: Path, text: str) -> Path:
    program.write_text(text, encoding="utf-8")
    program.chmod(0o700)
    return program


def _encrypt(program: Path, **environment: str) -> Ended:
    words = ["encrypt", "--config", KMS, "--resource", "secrets", "--path", PATH, f"--plugin=p={program}"]
    return call([kmsrest_program(), *words], b"hello", env={**os.environ, **environment})


def _check_shifted(checks: Checks, folder: Path) -> None:
    names = ["a", "b", "c"]
    for name in names:
        words = ["put", "--config", KMS, "--store", folder / "odd-store", "--resource", "secrets", "--path", f"/{name}"]
        done = call([kmsrest_program(), *words, f"--plugin=p={MASK}"], name.encode())
        checks.expect(f"an object is put at /{name}", 0, done.status)
    shutil.copy(KMS, folder / "kms.yaml")
    lines = ["fleet 1", "replica a kms.yaml", "worker w a", *(f"get /{name}" for name in names * 2)]
    (folder / "odd-fleet").write_text("\n".join(lines) + "\n", encoding="utf-8")
    program = _make(folder / "shifted", SHIFTED)
    words = ["fleet", "--file", "odd-fleet", "--store", "odd-store", f"--plugin=p={program}"]
    done = call([kmsrest_program(), *words], cwd=folder)
    replies = [line for line in done.output.decode().splitlines() if line.startswith("w ")]
    checks.expect("a plugin that logs between two answers is a fault from then on, and shifts no answer",
                  (4, [f"w {number} fault plugin p" for number in range(1, 7)]), (done.status, replies))
    banner = _make(folder / "banner", f"#!/bin/sh\necho 'plugin 1.0'\nexec {MASK}\n")
    done = _encrypt(banner)
    checks.expect("a plugin that begins with a banner is a fault", (4, b"", FAULT), (done.status, done.output, done.own_line))


def _check_errors(checks: Checks, folder: Path) -> None:
    text = "#!/bin/sh\necho 'the key is gone' >&2\nread -r line\necho '{\"error\":\"key\"}'\nread -r line\n"
    program = _make(folder / "talks", text)
    done = _encrypt(program)
    wanted = f"the key is gone\n{FAULT}\n"
    checks.expect("what a plugin writes to its standard error is read before our line", wanted, done.errors)
    program = _make(folder / "talks-well", f"#!/bin/sh\necho note >&2\nexec {MASK}\n")
    done = _encrypt(program)
    checks.expect("also where all is well", (0, "note\n"), (done.status, done.errors))


def _check_wrappers(checks: Checks, folder: Path) -> None:
    log = folder / "logged"
    done = _encrypt(PLUGINS / "logged.py", LOGGED_PLUGIN=str(MASK), LOGGED_FILE=str(log))
    lines = log.read_text(encoding="utf-8").splitlines()
    ways = [(line.split()[2], list(json.loads(line.split(" ", 3)[3]))) for line in lines]
    wanted = [(">", ["call"]), ("<", ["healthz", "key_id", "version"]), (">", ["call", "plaintext", "uid"]),
              ("<", ["annotations", "ciphertext", "key_id"])]
    checks.expect("logged.py logs both ways", (0, wanted), (done.status, ways))
    checks.expect("and leaves the seed out", "(32 bytes)", json.loads(lines[2].split(" ", 3)[3])["plaintext"])
    done = _encrypt(PLUGINS / "limited.py", LIMITED_PLUGIN=str(MASK), LIMITED_SECONDS="600")
    checks.expect("limited.py lets a plugin answer", (0, ""), (done.status, done.errors))
    hangs = _make(folder / "hangs", "#!/bin/sh\nread -r line\nexec sleep 9999\n")
    done = _encrypt(PLUGINS / "limited.py", LIMITED_PLUGIN=str(hangs), LIMITED_SECONDS="0.5")
    checks.expect("and one that hangs is a fault", (4, FAULT), (done.status, done.own_line))
    both = _encrypt(PLUGINS / "limited.py", LIMITED_PLUGIN=str(PLUGINS / "logged.py"), LIMITED_SECONDS="600",
                    LOGGED_PLUGIN=str(MASK), LOGGED_FILE=str(log))
    checks.expect("one may stand around the other", 0, both.status)


def _check_core_dumps(checks: Checks, folder: Path) -> None:
    """The script's own limit, over a program that tells it, as one that is installed."""
    top = folder / "top"
    (top / "libexec").mkdir(parents=True)
    for name in ("front", "help"):
        shutil.copytree(TOP / name, top / name)
    for name in ("kmsrest", "VERSION"):
        shutil.copy(TOP / name, top / name)
    _make(top / "libexec" / "kmsrest", "#!/bin/sh\nulimit -S -c\nulimit -H -c\n")
    checks.expect("./kmsrest turns core dumps off", b"0\n0\n", call([top / "kmsrest", "list"]).output)


def check(checks: Checks, folder: Path) -> None:
    """All of it."""
    _check_shifted(checks, folder)
    _check_errors(checks, folder)
    _check_wrappers(checks, folder)
    _check_core_dumps(checks, folder)
