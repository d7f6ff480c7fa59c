"""When tools/release makes nothing: in a small checkout, over a record that the gate didn't leave for these very files."""
import os
import shutil
import subprocess
import sys
from pathlib import Path

from support import TOP, Checks, Ended, call

sys.path.insert(0, str(TOP / "tools"))
from releasing import tree  # noqa: E402 (its folder must be on the path first)

PASSED = "9 passed, 0 failed"
WHOLE = "99 passed, 0 failed, 1 skipped"
IGNORED = "/crates/*/out/\n/out/\n__pycache__/\n"
OWN_GIT = {"GIT_CONFIG_GLOBAL": "/dev/null", "GIT_CONFIG_NOSYSTEM": "1"}


class Checkout:
    """A checkout with one crate, and programs that stand for what the gate built."""

    def __init__(self, top: Path):
        self.top, self.made = top, top.parent / "made"
        for name in tree.files_of((*tree.SHIPPED, "tools/gate-record")):
            (top / name).parent.mkdir(parents=True, exist_ok=True)
            shutil.copy(TOP / name, top / name)
        self.source = top / "crates" / "kmsrest" / "src" / "lib.rt"
        texts = {self.source: "// a crate\n", top / "HANDLES": "\n", top / "crates.txt": "kmsrest:\n", top / ".gitignore": IGNORED}
        for path, text in texts.items():
            path.parent.mkdir(parents=True, exist_ok=True)
            path.write_text(text, encoding="utf-8")
        for name in tree.PROGRAMS:
            (top / "crates" / name / "out").mkdir(parents=True)
            shutil.copy("/bin/true", top / "crates" / name / "out" / name)
        self.git("init", "-q")
        self.commit()

    def git(self, *words: str) -> None:
        own = ["-c", "user.name=check", "-c", "user.email=check@localhost", "-c", "commit.gpgsign=false"]
        subprocess.run(["git", *own, *words], cwd=self.top, env={**os.environ, **OWN_GIT}, check=True, capture_output=True)

    def commit(self) -> None:
        self.git("add", "-A")
        self.git("commit", "-q", "--allow-empty", "-m", "a commit")

    def record(self, *words: str) -> Ended:
        return call([self.top / "tools" / "gate-record", *words])

    def gate(self) -> None:
        """A gate that passes, up to its end."""
        for words in (("begin", "a kit"), ("proofs", PASSED), ("end", WHOLE)):
            done = self.record(*words)
            if done.status != 0:
                raise RuntimeError(done.errors)

    def release(self, *words: object) -> Ended:
        return call([self.top / "tools" / "release", *words, "--into", self.made], timeout=600)

    @property
    def has_record(self) -> bool:
        return (self.top / "out" / "gate.json").exists()


def refused(checks: Checks, what: str, checkout: Checkout, why: str, *words: object) -> None:
    """Nothing is made, and one line says why."""
    done = checkout.release(*words)
    told = (done.status, why in done.errors, done.errors.count("\n"), list(checkout.made.glob("*")) if checkout.made.exists() else [])
    checks.expect(f"no release {what}", (1, True, 1, []), told if told[1] else (done.status, done.errors))


def before_its_end(checks: Checks, checkout: Checkout) -> None:
    """A gate that hasn't come so far."""
    refused(checks, "without a gate", checkout, "the gate left no record here")
    checkout.record("begin", "a kit")
    refused(checks, "before the proofs passed, by the gate neither", checkout, "proofs and tests haven't passed", "--in-gate")
    checkout.record("proofs", PASSED)
    refused(checks, "before the gate's end", checkout, "hasn't passed to its end")


def other_files(checks: Checks, checkout: Checkout) -> None:
    """A gate that passed over other files."""
    checkout.gate()
    kept = checkout.source.read_text(encoding="utf-8")
    checkout.source.write_text("// another\n", encoding="utf-8")
    refused(checks, "of a crate that was changed and not committed", checkout, "aren't committed")
    refused(checks, "of a crate that was changed in the gate's midst", checkout, "aren't those that the gate proved", "--in-gate")
    checkout.commit()
    refused(checks, "of a crate that was changed since", checkout, "aren't those that the gate proved")
    checkout.source.write_text(kept, encoding="utf-8")
    bridge = checkout.top / "bridges" / "etcd-audit"
    bridge.write_text(bridge.read_text(encoding="utf-8") + "# more\n", encoding="utf-8")
    checkout.commit()
    refused(checks, "of a bridge that was changed since", checkout, "beside the programs isn't what the gate tried")
    shutil.copy(TOP / "bridges" / "etcd-audit", bridge)
    checkout.commit()
    program = checkout.top / "crates" / "kmsrest" / "out" / "kmsrest"
    shutil.copy("/bin/false", program)
    refused(checks, "of a program that the gate didn't build", checkout, "isn't the program that the gate built")
    program.unlink()
    refused(checks, "without the program", checkout, "which the gate builds")
    shutil.copy("/bin/true", program)


def lost_records(checks: Checks, checkout: Checkout) -> None:
    """Sources that change while the gate runs leave no record."""
    for step, line in (("proofs", PASSED), ("end", WHOLE)):
        checkout.gate()
        checkout.source.write_text(f"// changed before {step}\n", encoding="utf-8")
        done = checkout.record(step, line)
        checks.expect(f"sources that changed before the step {step} leave no record", (1, False), (done.status, checkout.has_record))
    checkout.commit()


def passes(checks: Checks, checkout: Checkout) -> None:
    """And beside all that: a gate that passed over just these files makes one, also from a later commit that has the same ones."""
    checkout.gate()
    (checkout.top / "must-fail-more").mkdir()
    (checkout.top / "must-fail-more" / "REFUSED").write_text("more\n", encoding="utf-8")
    checkout.commit()
    done = checkout.release()
    checks.expect("a release behind a gate that passed", (0, 2), (done.status, len(list(checkout.made.glob("kmsrest*")))))
    told = call(["tar", "-xzOf", next(checkout.made.glob("*.tar.gz")), "--wildcards", "*/lib/kmsrest/PROVED"]).output.decode()
    sources = checkout.record("sum").output.decode().strip()
    wanted = (PASSED, WHOLE, "a kit", sources, "which has the same sources")
    checks.expect("PROVED names kit, sources, both last lines and both commits", [], [each for each in wanted if each not in told])


def check(checks: Checks, room: Path) -> None:
    checkout = Checkout(room / "checkout")
    for case in (before_its_end, other_files, lost_records, passes):
        case(checks, checkout)
