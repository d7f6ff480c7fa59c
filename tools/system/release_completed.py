"""Words are completed by an installed release: in bash and zsh at a terminal by tab, in fish as it tells what it would offer."""
import os
import pty
import re
import select
import shutil
import signal
import time
from dataclasses import dataclass
from pathlib import Path

from release_made import Elsewhere
from support import Checks

# Seconds in which a shell must show what is waited for.
PATIENCE = 600
PROMPT = "ready> "
# A terminal's own signs, which move and colour and don't show.
SIGNS = re.compile(r"\x1b(?:\[[0-9;?]*[A-Za-z]|[=>])|\r|\x07")


@dataclass(frozen=True)
class Case:
    """What is typed, and what stands there behind tab."""

    typed: str
    shown: str


CASES = (
    Case("kmsrest ju", "kmsrest judge "),
    Case("kmsrest judge --rel", "kmsrest judge --reload "),
    Case("kmsrest help mig", "kmsrest help migrate "),
    Case("etcd-audit --outp", "etcd-audit --output "),
    Case("etcd-audit --output pro", "etcd-audit --output prometheus "),
    Case("store-to-etcd --dry", "store-to-etcd --dry-run "),
    Case("kmsrest rewrite --config the-", "kmsrest rewrite --config the-file "),
    Case("kmsrest-try-plan the-", "kmsrest-try-plan the-file "),
    Case("kmsrest vet the-", "kmsrest vet the-file "),
    Case("kmsrest vet --stri", "kmsrest vet --strict "),
)


class Terminal:
    """A shell at a terminal."""

    def __init__(self, words: list[str], environment: dict[str, str], folder: Path):
        self.text = ""
        self.process, self.master = pty.fork()
        if self.process == 0:
            os.chdir(folder)
            os.execvpe(words[0], words, environment)

    def type(self, text: str) -> None:
        os.write(self.master, text.encode())

    def waits_for(self, text: str, patience: float = PATIENCE) -> bool:
        """Whether this is shown, behind what was waited for before."""
        end = time.monotonic() + patience
        while text not in self.text:
            if not select.select([self.master], (), (), max(0, end - time.monotonic()))[0]:
                return False
            try:
                self.text += SIGNS.sub("", os.read(self.master, 65536).decode(errors="replace"))
            except OSError:
                return False
        self.text = self.text.partition(text)[2]
        return True

    def end(self) -> None:
        os.kill(self.process, signal.SIGKILL)
        os.waitpid(self.process, 0)
        os.close(self.master)


def at_terminal(checks: Checks, shell: str, terminal: Terminal, setup: str) -> None:
    """Types each case, and clears the line behind it."""
    try:
        # (the echo of these words has no prompt in one piece)
        terminal.type(setup)
        if not terminal.waits_for(PROMPT):
            checks.expect(f"{shell} begins", PROMPT, terminal.text)
            return
        for case in CASES:
            terminal.type(case.typed + "\t")
            shown = terminal.waits_for(case.shown)
            checks.expect(f"{shell}: {case.typed} and tab", case.shown, case.shown if shown else terminal.text)
            terminal.type("\x15\n")
            terminal.waits_for(PROMPT)
    finally:
        terminal.end()


def bash(checks: Checks, place: Elsewhere, folder: Path) -> None:
    """By bash-completion where it is there, which finds each program's file by its name; else each file is read first."""
    environment = {**place.environment, "TERM": "dumb", "XDG_DATA_DIRS": f"{place.prefix}/share", "PS1": ""}
    loader = Path("/usr/share/bash-completion/bash_completion")
    files = sorted((place.prefix / "share/bash-completion/completions").iterdir())
    sourced = [loader] if loader.exists() else files
    setup = "".join(f"source '{file}'; " for file in sourced) + "bind 'set enable-bracketed-paste off'; PS1='ready''> '\n"
    terminal = Terminal([*place.starter, "bash", "--norc", "--noprofile", "-i"], environment, folder)
    at_terminal(checks, "bash" + (" with bash-completion" if loader.exists() else ""), terminal, setup)


def zsh(checks: Checks, place: Elsewhere, folder: Path) -> None:
    """By compinit, with the release's folder in front."""
    if shutil.which("zsh") is None:
        print("(left out: zsh, which isn't here)", flush=True)
        return
    setup = f"PS1=; unsetopt zle_bracketed_paste prompt_cr prompt_sp; fpath=('{place.prefix}/share/zsh/site-functions' $fpath); "
    setup += "autoload -Uz compinit; compinit -D -u; PS1='ready''> '\n"
    terminal = Terminal([*place.starter, "zsh", "-f", "-i"], {**place.environment, "TERM": "dumb"}, folder)
    at_terminal(checks, "zsh", terminal, setup)


def fish(checks: Checks, place: Elsewhere, folder: Path) -> None:
    """What fish would offer."""
    if shutil.which("fish") is None:
        print("(left out: fish, which isn't here)", flush=True)
        return
    own = {"XDG_DATA_DIRS": f"{place.prefix}/share:/usr/share", "HOME": str(folder)}
    for case in CASES:
        done = place.call("fish", "-c", f"complete -C '{case.typed}'", folder=folder, **own)
        offered = [line.split("\t")[0] for line in done.output.decode().splitlines()]
        checks.expect(f"fish: {case.typed} and tab", [case.shown.split()[-1]], offered)


def check(checks: Checks, prefix: Path, room: Path) -> None:
    place = Elsewhere.at(prefix)
    folder = place.own_folder(room / "shells")
    (folder / "the-file").write_text("", encoding="utf-8")
    for shell in (bash, zsh, fish):
        shell(checks, place, folder)
