"""For whom a call waits, and what is left of one that is killed."""
import os
import select
import shutil
import signal
import subprocess
import time
from concurrent.futures import ThreadPoolExecutor
from pathlib import Path

from front_cases_plugins import AROUND, KMS, MASK
from support import PATH, PATIENCE, TOP, Checks, call, kmsrest_program, stood_on, wait_until

# So long the front end waits before it says so, and longer than that and than it needs to look again.
TOLD, LOOK = 10, 16
# A plugin that takes so many seconds for each answer, far fewer than the front end waits, and in sum longer than that.
SLOWLY, OBJECTS = 3, 5
HEAD = '#!/bin/sh\necho $$ >>"$0.pids"\n'
# It is asked and says nothing, and hears neither its input's end nor SIGTERM.
SILENT = HEAD + "trap '' TERM\nwhile :; do sleep 1; done\n"
READS = HEAD + "while read -r line; do :; done\n"
SLOW = f"""#!/usr/bin/python3
import sys, time
sys.dont_write_bytecode = True
sys.path.insert(0, "{TOP}/examples/plugins")
readline = sys.stdin.readline
class Slow:
    def __iter__(self):
        while line := readline():
            time.sleep({SLOWLY})
            yield line
    def readline(self, *more):
        time.sleep({SLOWLY})
        return readline(*more)
sys.stdin = Slow()
import mask
"""


def program(room: Path, name: str, text: str) -> Path:
    (room / name).write_text(text)
    (room / name).chmod(0o700)
    return room / name


def words_of(*more: object, config: Path = KMS) -> list[str]:
    words = [AROUND, kmsrest_program(), "encrypt", "--config", config, "--resource", "secrets", "--path", PATH, *more]
    return [str(word) for word in words]


def on_terminal(words: list[str], data: bytes | None) -> str:
    """What stands on a terminal that is a call's standard error, once it tells for whom it waits, or has ended."""
    ours, theirs = os.openpty()
    child = subprocess.Popen(words, stdin=subprocess.PIPE, stdout=subprocess.DEVNULL, stderr=theirs, preexec_fn=heed_interrupts)
    os.close(theirs)
    if data is not None:
        child.stdin.write(data)
        child.stdin.close()
    text, end = b"", time.monotonic() + PATIENCE
    while time.monotonic() < end and child.poll() is None and b"waiting: " not in text:
        if select.select([ours], (), (), 0.2)[0]:
            text += read_from(ours)
    child.send_signal(signal.SIGINT)
    child.wait(PATIENCE)
    return (text + stood_on(ours)).decode(errors="replace")


def heed_interrupts() -> None:
    """What runs in the background may ignore Ctrl-C, and then so would the call."""
    signal.signal(signal.SIGINT, signal.SIG_DFL)


def read_from(terminal: int) -> bytes:
    """What comes next; nothing once nobody has the terminal."""
    try:
        return os.read(terminal, 4096)
    except OSError:
        return b""


def filled(store: Path) -> Path:
    """A store of a few objects, each under a seed of its own, which a plugin has to unwrap."""
    for number in range(OBJECTS):
        words = ["put", "--config", KMS, "--resource", "secrets", "--path", f"/{number}", "--store", store, f"--plugin=p={MASK}"]
        if (done := call([kmsrest_program(), *words], b"hello")).status != 0:
            raise RuntimeError(f"put: {done.errors}")
    return store


def told_waiting(checks: Checks, room: Path) -> None:
    """Calls side by side, each of which waits for somebody, or for nobody so long."""
    silent, slow = program(room, "silent", SILENT), program(room, "slow", SLOW)
    os.mkfifo(room / "pipe")
    identity, store = TOP / "examples" / "identity.yaml", filled(room / "store")
    verify = [str(word) for word in (AROUND, kmsrest_program(), "verify", "--config", KMS, "--store", store, f"--plugin=p={slow}")]
    quiet = lambda: call(["timeout", "-k", str(PATIENCE), str(LOOK), *words_of(f"--plugin=p={silent}")], b"hello").errors
    calls = {
        "a plugin that says nothing": lambda: on_terminal(words_of(f"--plugin=p={silent}"), b"hello"),
        "standard input": lambda: on_terminal(words_of(config=identity), None),
        "a pipe as configuration": lambda: on_terminal(words_of(config=room / "pipe"), b"hello"),
        "a plugin that answers, slowly": lambda: on_terminal(verify, b""),
        "no terminal": quiet,
    }
    began = time.monotonic()
    with ThreadPoolExecutor(max_workers=len(calls)) as pool:
        ended = dict(zip(calls, pool.map(lambda ask: (ask(), time.monotonic() - began), calls.values())))
    texts = {what: text for what, (text, _seconds) in ended.items()}
    lines = {what: [line.strip() for line in text.splitlines() if line.startswith("waiting: ")] for what, text in texts.items()}
    wanted = {
        "a plugin that says nothing": f"waiting: for 10 seconds for an answer of the plugin p ({silent}, process ",
        "standard input": "waiting: for 10 seconds for more of its standard input; Ctrl-C ends the call",
        "a pipe as configuration": f"waiting: for 10 seconds for somebody who writes to the pipe {room / 'pipe'} (--config); ",
    }
    for what, found in lines.items():
        told = (len(found), what in wanted and found[0].startswith(wanted[what]) if found else False)
        checks.expect(f"waiting: {what}", (1, True) if what in wanted else (0, False), told)
    text, seconds = ended["a plugin that answers, slowly"]
    checks.expect("waiting: the slow one is done, and took longer than others are waited for", (True, True), ("fault" not in text, seconds > TOLD))


def alive(plugin: Path) -> list[int]:
    """Which of a plugin's processes there are still, long after its call has ended."""
    pids = list(map(int, Path(f"{plugin}.pids").read_text().split()))
    end = time.monotonic() + PATIENCE
    while (left := [pid for pid in pids if is_there(pid)]) and time.monotonic() < end:
        time.sleep(0.1)
    for pid in left:
        os.kill(pid, signal.SIGKILL)
    return left


def is_there(pid: int) -> bool:
    try:
        return Path(f"/proc/{pid}/stat").read_text().rpartition(")")[2].split()[0] != "Z"
    except OSError:
        return False


def started(words: list[str], plugin: Path) -> subprocess.Popen:
    """A call whose plugin has begun."""
    child = subprocess.Popen(words, stdin=subprocess.DEVNULL, stdout=subprocess.DEVNULL, stderr=subprocess.DEVNULL)
    pids = Path(f"{plugin}.pids")
    wait_until(lambda: pids.exists() and pids.read_text().endswith("\n"), f"the plugin {plugin} has begun", child)
    return child


def nothing_left(checks: Checks, room: Path) -> None:
    """Calls that are killed in one way or another, with plugins that go on: none is left."""
    plugin = program(room, "killed", SILENT)
    child = started(words_of(f"--plugin=p={plugin}"), plugin)
    [program_pid] = Path(f"/proc/{child.pid}/task/{child.pid}/children").read_text().split()
    os.kill(int(program_pid), signal.SIGKILL)
    checks.expect("kmsrest is killed: the call ends so", -signal.SIGKILL, child.wait(PATIENCE))
    checks.expect("and its plugin is ended", [], alive(plugin))
    plugin = program(room, "at-end", READS)
    child = started(words_of(f"--plugin=p={plugin}"), plugin)
    child.kill()
    child.wait()
    checks.expect("all is killed: a plugin that reads sees its input's end", [], alive(plugin))
    if shutil.which("setpriv"):
        silent = program(room, "inside", SILENT)
        outer = program(room, "outer", f"#!/bin/sh\nexec setpriv --pdeathsig KILL {silent}\n")
        child = started(words_of(f"--plugin=p={outer}"), silent)
        child.kill()
        child.wait()
        checks.expect("all is killed: setpriv ends one that doesn't read", [], alive(silent))
    plugin = program(room, "bounded", SILENT)
    done = call(["timeout", "-k", str(PATIENCE), "15", *words_of(f"--plugin=p={plugin}")], b"hello", timeout=2 * PATIENCE)
    checks.expect("timeout bounds a call, which heeds its first signal", 124, done.status)
    checks.expect("and its plugin is ended", [], alive(plugin))
