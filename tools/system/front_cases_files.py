"""`plan --files`: the files of a plan, as API servers are given them."""
import subprocess
from pathlib import Path

from front_cases_remarks import AROUND, ROTATION, front
from support import PATIENCE, Checks, Ended, kmsrest_program

# The program, which goes on behind its moves only once their reader has left.
HOLDS = """#!/bin/sh
'{program}' "$@" || exit
case " $* " in *" --show "*) exit ;; esac
while [ ! -e '{left}' ]; do sleep 0.05; done
"""
NAMES = ["1-wide.yaml", "2-turned.yaml", "3-to.yaml"]
HEAD = "apiVersion: apiserver.config.k8s.io/v1\nkind: EncryptionConfiguration\nresources:\n"
ENTRY = "  - resources:\n{resources}    providers:\n{providers}"


def plugin(name: str, **members: object) -> str:
    """A provider of a plugin with these members besides."""
    told = {"apiVersion": "v2", "name": name, **members}
    return "      - kms:\n" + "".join(f"          {member}: {value}\n" for member, value in told.items())


def entry(providers: str, *resources: str) -> str:
    return ENTRY.format(resources="".join(f"      - {it}\n" for it in resources or ("secrets",)), providers=providers)


PLAIN = "      - identity: {}\n"
P = plugin("p", endpoint="unix:///run/p.sock", timeout="5s")
Q = plugin("q", endpoint="unix:///run/q.sock", cachesize=100)


def configuration(room: Path, name: str, *entries: str) -> Path:
    path = room / name
    path.write_text(HEAD + "".join(entries))
    return path


def planned(old: Path, new: Path, folder: Path, *words: object) -> Ended:
    return front("plan", "--from", old, "--to", new, "--replicas", 2, "--files", folder, *words)


def files_of(folder: Path) -> list[str]:
    return sorted(path.name for path in folder.iterdir()) if folder.is_dir() else []


def meaning(path: Path) -> bytes:
    """What the program reads in a file: entries, and a plan from it to itself, which has each key with its secret."""
    return front("check", "--config", path).output + front("plan", "--from", path, "--to", path, "--replicas", 1, "--show", "wide").output


def plan_files(checks: Checks, room: Path) -> None:
    """Three files of their owner alone, which the program reads as the plan has them, with what a plan leaves out of a plugin."""
    old, new, folder = configuration(room, "old.yaml", entry(P + PLAIN)), configuration(room, "new.yaml", entry(Q + PLAIN)), room / "out"
    done = planned(old, new, folder)
    moves = front("plan", "--from", old, "--to", new, "--replicas", 2).output.decode()
    told = "".join(f"{word} {folder}/{name}\n" for word, name in zip(("wide", "turned", "to"), NAMES))
    checks.expect("plan --files: the moves, and the files", (0, moves + told, ""), (done.status, done.output.decode(), done.errors))
    checks.expect("they are their owner's alone", [0o700, 0o600, 0o600, 0o600], [it.stat().st_mode & 0o777 for it in (folder, *(folder / name for name in NAMES))])
    texts = [(folder / name).read_text() for name in NAMES]
    for number, text in enumerate(texts, 1):
        checks.expect(f"file {number} says which step it is", True, text.startswith(f"# Step {number} of 3, ") and "old.yaml" in texts[0])
    for piece in ("unix:///run/p.sock", "5s", "unix:///run/q.sock", "cachesize: 100"):
        checks.expect(f"{piece} is back", [True, True, piece in new.read_text()], [piece in text for text in texts])
    for word, name in zip(("wide", "turned"), NAMES):
        (room / word).write_bytes(front("plan", "--from", old, "--to", new, "--replicas", 2, "--show", word).output)
        checks.expect(f"{word} is read as the plan has it", meaning(room / word), meaning(folder / name))
    checks.expect("the last one is the new one", meaning(new), meaning(folder / NAMES[2]))
    done = planned(old, new, folder)
    checks.expect("nothing is written over, and no plan is printed", (4, b"", True), (done.status, done.output, "is there already, and nothing is written over" in done.errors))
    checks.expect("and nothing has changed", texts, [(folder / name).read_text() for name in NAMES])
    plan_files_unread(checks, room, old, new)


def plan_files_unread(checks: Checks, room: Path, old: Path, new: Path) -> None:
    """A reader that takes the moves and leaves; the files are told after that."""
    holds, left, folder = room / "holds", room / "reader-left", room / "unread"
    holds.write_text(HOLDS.format(program=kmsrest_program(), left=left))
    holds.chmod(0o755)
    words = ["plan", "--from", old, "--to", new, "--replicas", 2]
    moves = front(*words).output.splitlines(keepends=True)
    child = subprocess.Popen([str(word) for word in (AROUND, holds, *words, "--files", folder)], stdout=subprocess.PIPE, stderr=subprocess.PIPE)
    taken = [child.stdout.readline() for _ in moves]
    child.stdout.close()
    left.touch()
    errors = child.stderr.read().decode()
    found = (child.wait(PATIENCE), taken == moves, errors.count("\n"), files_of(folder))
    child.stderr.close()
    checks.expect("a reader that leaves: one line, and the files", (4, True, 1, NAMES), found)


def plan_files_of_keys(checks: Checks, room: Path) -> None:
    """Keys, JSON, and a folder that is there with one of the names."""
    old, new = ROTATION / "old.yaml", ROTATION / "last.yaml"
    checks.expect("keys", 0, planned(old, new, room / "keys").status)
    in_json = room / "last.json"
    in_json.write_bytes(front("plan", "--from", new, "--to", new, "--replicas", 1, "--show", "wide").output)
    checks.expect("a configuration in JSON", 0, planned(old, in_json, room / "json").status)
    checks.expect("is written in YAML with the same meaning", meaning(in_json), meaning(room / "json" / NAMES[2]))
    (room / "taken").mkdir()
    (room / "taken" / NAMES[2]).write_text("mine")
    done = planned(old, new, room / "taken")
    checks.expect("a name that is taken: none is made", (4, [NAMES[2]], "mine"), (done.status, files_of(room / "taken"), (room / "taken" / NAMES[2]).read_text()))
    done = planned(old, new, room / "both", "--show", "wide")
    checks.expect("--files beside --show", (2, b"", []), (done.status, done.output, files_of(room / "both")))
    done = planned(old, room / "nowhere", room / "absent")
    checks.expect("what the program refuses makes no file", (3, True, []), (done.status, "text 40" in done.errors, files_of(room / "absent")))
    done = planned(new, old, Path("/proc/nowhere"))
    checks.expect("a folder that can't be made", (4, True), (done.status, done.errors.startswith("kmsrest: plan --files: /proc/nowhere")))


def plan_files_refused(checks: Checks, room: Path) -> None:
    """What can't be restored is refused, and no file is made; beside each what can be."""
    mine = configuration(room, "mine.yaml", entry(P + PLAIN))
    others = {
        "endpoint": plugin("p", endpoint="unix:///run/other.sock", timeout="5s"),
        "timeout": plugin("p", endpoint="unix:///run/p.sock", timeout="4s"),
        "cachesize": plugin("p", endpoint="unix:///run/p.sock", timeout="5s", cachesize=7),
    }
    for member, other in others.items():
        done = planned(mine, configuration(room, "other.yaml", entry(Q + other + PLAIN)), room / "out")
        found = (done.status, files_of(room / "out"), f"has another `{member}` at line" in done.errors)
        checks.expect(f"a plugin with two values of its {member}", (3, [], True), found)
    done = planned(mine, configuration(room, "same.yaml", entry(Q + P + PLAIN)), room / "same")
    checks.expect("a plugin with one", 0, done.status)
    two = configuration(room, "two.yaml", entry(P + PLAIN, "secrets", "configmaps"))
    checks.expect("a plugin of two resources", 0, planned(two, configuration(room, "plain.yaml", entry(PLAIN, "secrets", "configmaps")), room / "two").status)
    checks.expect("stands in one entry, as the API server wants it", 1, (room / "two" / NAMES[0]).read_text().count("- kms:"))
    parted = configuration(room, "parted.yaml", entry(P + PLAIN, "secrets"))
    done = planned(parted, configuration(room, "both.yaml", entry(Q + PLAIN, "secrets"), entry(P, "configmaps")), room / "parted")
    checks.expect("a plugin that would stand in two entries", (3, [], True), (done.status, files_of(room / "parted"), "in two entries" in done.errors))

