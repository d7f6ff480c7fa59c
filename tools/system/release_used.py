"""An installed release, used by somebody who has nothing else: the documents' examples, a KMS v2 plugin, words and man pages."""
import importlib.util
import re
import shutil
import tempfile
from pathlib import Path

from document_blocks import PAGES, Place, run_section, sections_of
from release_made import Elsewhere
from support import TOP, Checks, KmsServer, running

KMS_CONFIGURATION = """\
apiVersion: apiserver.config.k8s.io/v1
kind: EncryptionConfiguration
resources:
  - resources:
      - secrets
    providers:
      - kms:
          apiVersion: v2
          name: p
          endpoint: ENDPOINT
          timeout: 120s
"""
SECRET = "--config kms.yaml --resource secrets --path /registry/secrets/d/s"
SEAL_AND_READ = f"""\
mapfile -t plugins < <(kms-bridge --into programs --config kms.yaml)
printf hello | kmsrest encrypt {SECRET} "${{plugins[@]}}" >value
kmsrest inspect <value | sed -n '1s/ [0-9]*$//p'
kmsrest decrypt {SECRET} "${{plugins[@]}}" <value
"""
ROLLOUT_FILES = """\
cp "$TOP"/examples/rotation/*.yaml .
sed 's/AAEC/AAED/' old.yaml >wrong.yaml
printf hi | kmsrest put --config old.yaml --store store --resource secrets --path /registry/secrets/d/s
"""
# The words of a rollout that is tried, and its status with the last line that it prints.
ROLLOUTS = {
    "store old.yaml last.yaml 2": (0, "1 of 1 objects are read"),
    "store wrong.yaml last.yaml 2": (3, "kmsrest: text 51 /registry/secrets/d/s"),
    "none old.yaml last.yaml 2": (1, "kmsrest-try-plan: none: No such file or directory"),
    "store old.yaml last.yaml 17": (6, "kmsrest: limit replicas 16"),
    "store old.yaml": (2, "kmsrest-try-plan: error: the following arguments are required: TO, REPLICAS"),
}
# What stands behind an option in the words that a program prints.
OPTION = re.compile(r"(?<![\w-])--[a-z][a-z0-9-]*")
# What stands for any option there.
ANY = {"--name"}


class Told:
    """What running documents tells of each command, as checks count it."""

    def __init__(self, checks: Checks):
        self.checks, self.skipped = checks, 0

    def tell(self, what: str, fault: str | None) -> None:
        self.checks.expect(what, None, fault)

    def skip(self, what: str, why: str) -> None:
        self.skipped += 1
        print(f"(left out: {what}: {why})", flush=True)


def documents(checks: Checks, place: Elsewhere) -> None:
    """README's examples, and OPERATORS' exchange, each line compared."""
    told, here = Told(checks), Place(place.library, place.environment, place.starter, place.owner)
    for page in PAGES:
        for section in sections_of(page, (TOP / page).read_text(encoding="utf-8")):
            run_section(told, section, here)


def plugin(checks: Checks, place: Elsewhere, room: Path) -> None:
    """A value goes through kms-bridge to a plugin that speaks gRPC, and back."""
    if importlib.util.find_spec("grpc") is None:
        print("(left out: kms-bridge, since there is no python3-grpcio)", flush=True)
        return
    # (a socket's name may have some hundred letters at most)
    with tempfile.TemporaryDirectory(prefix="kms-") as near:
        Path(near).chmod(0o755)
        folder, socket = place.own_folder(room / "kms"), Path(near) / "s"
        (folder / "kms.yaml").write_text(KMS_CONFIGURATION.replace("ENDPOINT", f"unix://{socket}"), encoding="utf-8")
        with running(KmsServer(Path(near), "server", f"unix:{socket}")):
            socket.chmod(0o666)
            probed = place.call("kms-bridge", "--endpoint", f"unix://{socket}", "--timeout", "120s", "--probe", folder=folder)
            checks.expect("kms-bridge --probe over gRPC", 0, probed.status)
            done = place.call("bash", "-c", SEAL_AND_READ, folder=folder)
            checks.expect("a value by a plugin over gRPC", (b"kms p\nhello", "fresh"), (done.output, done.own_line))


def pages(checks: Checks, place: Elsewhere, room: Path) -> None:
    """Each program has a man page without a warning, which has each option that the program tells of itself."""
    folder = place.own_folder(room / "man")
    for program in sorted((place.prefix / "bin").iterdir()):
        if program.name == "kubectl-kmsrest":
            continue
        page = place.prefix / "share" / "man" / "man1" / f"{program.name}.1"
        text = page.read_text(encoding="utf-8").replace("\\-", "-") if page.exists() else ""
        told = place.call(program.name, "--help", folder=folder).output.decode()
        lacks = set(OPTION.findall(told)) - set(OPTION.findall(text)) - ANY
        checks.expect(f"{program.name}.1 has all words of {program.name} --help", set(), lacks)
        if shutil.which("man"):
            shown = place.call("man", "--warnings", "-l", page, folder=folder, MANWIDTH="100")
            is_page = f"NAME {program.name} - " in " ".join(shown.output.decode().replace("\u2010", "-").split())
            checks.expect(f"man shows {program.name}.1", (0, "", True), (shown.status, shown.errors, is_page))
            found = place.call("man", "-w", program.name, folder=folder, MANPATH=str(page.parents[1]))
            checks.expect(f"man {program.name} finds it", f"{page}\n", found.output.decode())


def rollouts(checks: Checks, place: Elsewhere, room: Path) -> None:
    """A rollout that goes through leaves the store as it is; each that doesn't ends with one line, or the words' own."""
    folder = place.own_folder(room / "rollouts")
    made = place.call("bash", "-ec", ROLLOUT_FILES, folder=folder)
    store = (folder / "store").read_bytes() if made.status == 0 else b""
    for words, wanted in ROLLOUTS.items():
        done = place.call("kmsrest-try-plan", *words.split(), folder=folder)
        told = (done.output or done.errors.encode()).decode().splitlines()[-1:]
        checks.expect(f"kmsrest-try-plan {words}", wanted, (done.status, *told))
    checks.expect("and the store is as it was", (0, True), (made.status, store != b"" and (folder / "store").read_bytes() == store))


def demo(checks: Checks, place: Elsewhere, room: Path) -> None:
    """The exchange of a key that it shows by itself, over a store and over an etcd of its own."""
    folder = place.own_folder(room / "demo")
    for words in (("demo",), ("demo", "--etcd")) if shutil.which("etcd") else (("demo",),):
        done = place.call("kmsrest", *words, folder=folder, HOME=str(folder))
        checks.expect(f"kmsrest {' '.join(words)}", (0, True), (done.status, len(done.output) > 1000))


def check(checks: Checks, prefix: Path, room: Path) -> None:
    place = Elsewhere.at(prefix)
    documents(checks, place)
    plugin(checks, place, room)
    rollouts(checks, place, room)
    demo(checks, place, room)
    pages(checks, place, room)
