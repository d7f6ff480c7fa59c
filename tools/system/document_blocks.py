"""The commands of documents, run where a place says, and what they print compared with what the document says.

A command is a line that begins with `$ `, in a block; the lines behind it are what it prints, on both streams, byte for byte but for
a last newline that isn't printed. Each section (a heading of level 2) begins in an empty folder. A section that speaks to etcd gets
one of its own."""
import contextlib
import os
import re
import shutil
import subprocess
import tempfile
from collections.abc import Callable, Mapping
from dataclasses import dataclass, field
from pathlib import Path

from etcd_server import EtcdServer

# The documents whose commands are run.
PAGES = ("README.md", "docs/OPERATORS.md", "examples/kubernetes/README.md")
END = "\1"
# Seconds that a section may take.
PATIENCE = 600


@dataclass
class Command:
    """A command of a document, the line that it stands on, and what it is to print."""

    line: int
    text: str
    output: list[str] = field(default_factory=list)


@dataclass(frozen=True)
class Section:
    """A section's commands, one behind another."""

    page: str
    heading: str
    commands: tuple[Command, ...]

    @property
    def name(self) -> str:
        return f"{self.page}, section {self.heading!r}"

    @property
    def speaks_to_etcd(self) -> bool:
        return any(re.search(r"\betcdctl\b|etcd-", command.text) for command in self.commands)


@dataclass(frozen=True)
class Place:
    """Where commands are run: what TOP names, the environment, which words start bash there, and whose the folder is."""

    top: Path
    environment: Mapping[str, str]
    starter: tuple[str, ...] = ()
    owner: int | None = None


def sections_of(page: str, text: str) -> list[Section]:
    """The sections of a page that have commands."""
    found, heading, goes_on = {}, "", False
    for number, line in enumerate(text.split("\n"), 1):
        if line.startswith("## "):
            heading = line[3:]
        if not line.startswith("    "):
            goes_on = False
            continue
        line = line[4:]
        commands = found.setdefault(heading, [])
        if line.startswith("$ "):
            commands.append(Command(number, line[2:]))
            goes_on = True
        elif goes_on and commands[-1].text.endswith("\\") and not commands[-1].output:
            commands[-1].text += "\n" + line
        elif goes_on and line.startswith("> ") and not commands[-1].output:
            commands[-1].text += "\n" + line[2:]
        elif goes_on:
            commands[-1].output.append(line)
    return [Section(page, heading, tuple(commands)) for heading, commands in found.items() if commands]


def printed_by(section: Section, folder: Path, place: Place, environment: Mapping[str, str]) -> list[bytes]:
    """What each command prints, on both streams, one behind another in one shell."""
    script = "exec 2>&1\n" + "".join(f"{command.text}\nprintf '\\001'\n" for command in section.commands)
    done = subprocess.run(
        [*place.starter, "bash", "-c", script],
        cwd=folder,
        env=environment,
        stdin=subprocess.DEVNULL,
        capture_output=True,
        timeout=PATIENCE,
        check=False,
    )
    return done.stdout.split(END.encode())


def run_section(counts, section: Section, place: Place) -> None:
    """Runs a section; `counts` is told of each command, or that the section is skipped."""
    if section.speaks_to_etcd and not (shutil.which("etcd") and shutil.which("etcdctl")):
        counts.skip(section.name, "there is no etcd here (tools/install-checks installs it)")
        return
    with tempfile.TemporaryDirectory() as room, contextlib.ExitStack() as stack:
        folder = Path(room) / "work"
        folder.mkdir()
        if place.owner is not None:
            Path(room).chmod(0o755)
            os.chown(folder, place.owner, place.owner)
        environment = {**place.environment, "TOP": str(place.top), "LC_ALL": "C.UTF-8"}
        if section.speaks_to_etcd:
            try:
                etcd = stack.enter_context(EtcdServer(Path(room) / "etcd"))
            except RuntimeError:
                counts.skip(section.name, "etcd doesn't begin to serve here")
                return
            environment |= {"ETCDCTL_API": "3", "ETCDCTL_ENDPOINTS": etcd.endpoint, "PATH": f"{etcd.programs}:{environment['PATH']}"}
        compare(counts.tell, section, printed_by(section, folder, place, environment))


def compare(tell: Callable[[str, str | None], None], section: Section, printed: list[bytes]) -> None:
    """Tells of each command what is wrong with what it printed, and None where nothing is."""
    for command, found in zip(section.commands, printed):
        wanted = "".join(line + "\n" for line in command.output).encode()
        same = found in (wanted, wanted[:-1])
        told = f"`{command.text}` prints\n{found.decode(errors='replace')}"
        tell(f"{section.name}, line {command.line}", None if same else told)
    for command in section.commands[len(printed) - 1 :]:
        tell(f"{section.name}, line {command.line}", "it isn't reached")
