"""The children that the program starts: each is ended and waited for, whatever it ignores."""
import json
import os
import re
import resource
import subprocess
from pathlib import Path

from support import PATH, TOP, Checks, call, kmsrest_program, wait_until

KMS = TOP / "examples" / "kms.yaml"
# What a plugin in Python begins with: it answers as mask.py does, and tells its number to a file.
ANSWERS = f"""#!/usr/bin/python3
import os, signal, sys, time
sys.dont_write_bytecode = True
with open(os.environ["PIDS"], "a") as pids:
    pids.write(f"{{os.getpid()}}\\n")
sys.path.insert(0, "{TOP}/examples/plugins")
"""
# Each goes on behind its input's end, or behind the signals that may be ignored.
STUBBORN = {
    "ignores its input's end": "import mask\nwhile True: time.sleep(1)\n",
    "ignores SIGTERM and SIGHUP": "signal.signal(signal.SIGTERM, signal.SIG_IGN)\n"
                                  "signal.signal(signal.SIGHUP, signal.SIG_IGN)\nimport mask\nwhile True: time.sleep(1)\n",
    "is stopped": "import json\nprint(json.dumps({'healthz': 'ok', 'key_id': 'k', 'version': 'v2'}), flush=True)\n"
                  "os.close(1)\nos.kill(os.getpid(), signal.SIGSTOP)\n",
}
WORKERS, PLUGINS = 50, 4
# A light one, which tells its number too. What it wraps is never unwrapped: the seed is the published one.
COUNTED = r"""#!/bin/sh
echo $$ >>"$PIDS"
while read -r line; do
    case $line in
    *'"status"'*) echo '{"healthz":"ok","key_id":"k","version":"v2"}' ;;
    *'"encrypt"'*) echo '{"ciphertext":"AAAA","key_id":"k"}' ;;
    *) echo '{"error":"no"}' ;;
    esac
done
"""


def _make(program: Path, text: str) -> Path:
    program.write_text(text, encoding="utf-8")
    program.chmod(0o700)
    return program


def is_there(pid: int) -> bool:
    """Does the process table have it, if only as what nobody waited for?"""
    return Path(f"/proc/{pid}").exists()


def children_of(parent: int) -> list[int]:
    """The processes that have it as their parent."""
    found = []
    for stat in Path("/proc").glob("[0-9]*/stat"):
        try:
            fields = stat.read_text(encoding="utf-8", errors="replace").rpartition(")")[2].split()
        except OSError:
            continue
        if int(fields[1]) == parent:
            found.append(int(stat.parent.name))
    return found


def _check_stubborn(checks: Checks, folder: Path) -> None:
    for number, (what, text) in enumerate(STUBBORN.items()):
        pids = folder / f"pids{number}"
        program = _make(folder / f"stubborn{number}", ANSWERS + text)
        words = ["encrypt", "--config", KMS, "--resource", "secrets", "--path", PATH, f"--plugin=p={program}"]
        done = call([kmsrest_program(), *words], b"hello", env={**os.environ, "PIDS": str(pids)})
        status = 4 if what == "is stopped" else 0
        checks.expect(f"a plugin that {what} is ended", status, done.status)
        started = [int(pid) for pid in pids.read_text(encoding="utf-8").split()]
        checks.expect("and is gone", [False], [is_there(pid) for pid in started])


def _write_fleet(folder: Path, data: str) -> None:
    providers = [{"kms": {"apiVersion": "v2", "name": f"p{number}", "endpoint": "unix:///p"}} for number in range(PLUGINS)]
    config = {"apiVersion": "apiserver.config.k8s.io/v1", "kind": "EncryptionConfiguration",
              "resources": [{"resources": ["secrets"], "providers": [*providers, {"identity": {}}]}]}
    (folder / "many.json").write_text(json.dumps(config), encoding="utf-8")
    lines = ["fleet 1", "replica a many.json"]
    for number in range(WORKERS):
        lines += [f"worker w{number} a", f"put secrets /s{number} {data}", f"get /s{number}"]
    (folder / "many").write_text("\n".join(lines) + "\n", encoding="utf-8")


def _check_many(checks: Checks, folder: Path) -> None:
    """200 links. The output is more than a pipe holds, so that the program stands at it when all links were given back."""
    _write_fleet(folder, "QUFB" * 1000)
    pids = folder / "pids-many"
    program = _make(folder / "counted", COUNTED)
    words = [kmsrest_program(), "fleet", "--file", "many", "--store", "many-store",
             *(f"--plugin=p{number}={program}" for number in range(PLUGINS))]
    with subprocess.Popen([str(word) for word in words], cwd=folder, env={**os.environ, "PIDS": str(pids)},
                          stdout=subprocess.PIPE, stderr=subprocess.PIPE) as fleet:
        first = fleet.stdout.read(1)
        wait_until(lambda: not children_of(fleet.pid), "a fleet at its output has ended its children")
        still_there = fleet.poll() is None
        output = first + fleet.stdout.read()
        errors = fleet.stderr.read()
    gets = len(re.findall(rb"^w[0-9]+ 2 get [0-9]+ QUFB", output, re.MULTILINE))
    checks.expect("a fleet of 200 links is run", (0, b"", WORKERS), (fleet.returncode, errors, gets))
    started = [int(pid) for pid in pids.read_text(encoding="utf-8").split()]
    checks.expect("each link had a program of its own", WORKERS * PLUGINS, len(set(started)))
    checks.expect("it had ended them before its output was read", True, still_there)
    checks.expect("and none of the programs", [], [pid for pid in started if is_there(pid)])


def _check_descriptors(checks: Checks, folder: Path) -> None:
    """2 descriptors a link and one a worker, and the few of the program and of a start."""
    needed = 2 * WORKERS * PLUGINS + WORKERS + 8
    program = folder / "counted"
    words = [kmsrest_program(), "fleet", "--file", "many", "--store", "limited-store",
             *(f"--plugin=p{number}={program}" for number in range(PLUGINS))]
    environment = {**os.environ, "PIDS": str(folder / "pids-limited")}

    def run(limit: int):
        limits = (limit, limit)
        return call(words, cwd=folder, env=environment,
                    preexec_fn=lambda: resource.setrlimit(resource.RLIMIT_NOFILE, limits))

    checks.expect(f"a fleet has enough with {needed} descriptors", 0, run(needed).status)
    (folder / "limited-store").unlink(missing_ok=True)
    done = run(needed // 2)
    checks.expect("with half of them it is a fault of the files", (4, "kmsrest: fault files 1"), (done.status, done.own_line))


def check(checks: Checks, folder: Path) -> None:
    """All of it."""
    _check_stubborn(checks, folder)
    _check_many(checks, folder)
    _check_descriptors(checks, folder)
