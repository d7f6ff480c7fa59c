"""The shell of examples/ci, run in repositories with a change of examples/rotation: one that is allowed, one that is refused, one
that is dangerous, and a first file."""
import os
import tempfile
from pathlib import Path

import vet_cases
from support import TOP, call
from vet_bench import PROGRAM, Bench
from vet_cases import BOTH, OLD


def git(folder: Path, *words: object) -> str:
    who = {"GIT_AUTHOR_NAME": "a", "GIT_AUTHOR_EMAIL": "a@b", "GIT_COMMITTER_NAME": "a", "GIT_COMMITTER_EMAIL": "a@b"}
    done = call(["git", "-C", folder, *words], env={**os.environ, **who, "GIT_CONFIG_GLOBAL": "/dev/null", "GIT_CONFIG_NOSYSTEM": "1"})
    assert done.status == 0, done.errors
    return done.output.decode().strip()


def rotation(bench: Bench) -> dict[str, str]:
    """The files of examples/rotation, with keys of one's own; and one that is dangerous."""
    found = {}
    for path in sorted((TOP / "examples" / "rotation").iterdir()):
        text = path.read_text(encoding="utf-8")
        for old, new in (("AAECAwQFBgcICQoLDA0ODxAREhMUFRYXGBkaGxwdHh8=", vet_cases.K1), ("ICEiIyQlJicoKSorLC0uLzAxMjM0NTY3ODk6Ozw9Pj8=", vet_cases.K2)):
            text = text.replace(old, new)
        found[path.stem] = text
    head, providers = found["old"].split("    providers:\n")
    found["dangerous"] = head + "    providers:\n      - identity: {}\n" + providers.replace("      - identity: {}\n", "")
    return found


class Repository:
    """A repository with a configuration, a change of it, and the tools beside."""

    PLACE = "deploy/encryption.yaml"

    def __init__(self, folder: Path, base: str | None, new: str):
        self.folder = folder
        git(folder, "init", "-q", "-b", "main")
        (folder / "deploy").mkdir()
        (folder / "README").write_text("x")
        if base is not None:
            (folder / self.PLACE).write_text(base)
        git(folder, "add", "-A")
        git(folder, "commit", "-q", "-m", "base")
        self.base = git(folder, "rev-parse", "HEAD")
        (folder / self.PLACE).write_text(new)
        (folder / "kmsrest").symlink_to(TOP)

    def run(self, script: str, **environment: str):
        return call(["bash", "-e", "-c", script], cwd=self.folder, env={**os.environ, **environment})


def workflow(repository: Repository):
    """The shell of the GitHub workflow, with its job's environment."""
    import yaml

    job = yaml.safe_load((TOP / "examples" / "ci" / "github.yaml").read_text())["jobs"]["vet"]
    environment = {name: str(value) for name, value in job["env"].items()} | {"BASE": repository.base}
    return repository.run(job["steps"][-1]["run"], **environment)


def gitlab(repository: Repository):
    import yaml

    job = next(iter(yaml.safe_load((TOP / "examples" / "ci" / "gitlab.yaml").read_text()).values()))
    variables = {name: str(value) for name, value in job["variables"].items()} | {"CI_MERGE_REQUEST_DIFF_BASE_SHA": repository.base}
    return repository.run("\n".join(job["script"]), **variables)


def hook(repository: Repository):
    """The hook, as git calls it at a commit."""
    folder = repository.folder
    (folder / ".git" / "hooks").mkdir(exist_ok=True)
    placed = folder / ".git" / "hooks" / "pre-commit"
    placed.write_bytes((TOP / "examples" / "ci" / "pre-commit").read_bytes())
    placed.chmod(0o755)
    git(folder, "config", "kmsrest.vet", PROGRAM)
    git(folder, "config", "kmsrest.configuration", Repository.PLACE)
    git(folder, "add", Repository.PLACE)
    return repository.run("git -c user.name=a -c user.email=a@b commit -q -m change")


def check(bench: Bench) -> None:
    files, place = rotation(bench), Repository.PLACE
    changes = (
        ("allowed", files["old"], files["both"], 0, "go on: 0 errors, 0 warnings"),
        ("refused", files["old"], files["new"], 1, "unread"),
        ("dangerous", files["old"], files["dangerous"], 3, "in-the-clear"),
        ("the first one, a key at once", None, files["old"], 1, "unread"),
    )
    for what, base, new, status, said in changes:
        for run in (workflow, gitlab, hook):
            with tempfile.TemporaryDirectory(dir=bench.room) as folder:
                done = run(Repository(Path(folder), base, new))
                printed = done.output.decode() + done.errors
                # (git ends with 1 where a hook ends otherwise than with 0)
                wanted = min(status, 1) if run is hook else status
                bench.expect(f"examples/ci, {run.__name__}, {what}", (wanted, True), (done.status, said in printed))
                named = f"file={place},line=" if run is workflow else f"{place}:"
                bench.expect(f"examples/ci, {run.__name__}, {what}: the file's name", status != 0, named in printed)
    for run, name in ((workflow, "BASE"), (gitlab, "CI_MERGE_REQUEST_DIFF_BASE_SHA")):
        with tempfile.TemporaryDirectory(dir=bench.room) as folder:
            repository = Repository(Path(folder), files["old"], files["both"])
            repository.base = "0" * 40
            bench.expect(f"examples/ci, {run.__name__}: a commit that isn't there is no empty file", False, run(repository).status == 0)
    with tempfile.TemporaryDirectory(dir=bench.room) as folder:
        repository = Repository(Path(folder), files["old"], files["old"])
        (repository.folder / "README").write_text("y")
        git(repository.folder, "add", "README")
        bench.expect("examples/ci, hook: another file's commit", 0, hook(repository).status)
    hook_without_settings(bench)


def hook_without_settings(bench: Bench) -> None:
    with tempfile.TemporaryDirectory(dir=bench.room) as folder:
        repository = Repository(Path(folder), OLD, BOTH)
        done = call([TOP / "examples" / "ci" / "pre-commit"], cwd=folder, env={**os.environ, "GIT_CONFIG_GLOBAL": "/dev/null"})
        bench.expect("examples/ci, hook: it says what isn't set", (1, True), (done.status, "git config has no kmsrest.vet" in done.errors))
        git(repository.folder, "config", "kmsrest.vet", PROGRAM)
        git(repository.folder, "config", "kmsrest.configuration", Repository.PLACE)
        done = call([TOP / "examples" / "ci" / "pre-commit"], cwd=folder, env={**os.environ, "GIT_CONFIG_GLOBAL": "/dev/null"})
        bench.expect("examples/ci, hook: nothing is staged", (0, ""), (done.status, done.errors))
