"""The words of the command line, and what each asks for."""
import argparse
import os
import resource
import signal
import sys
from pathlib import Path

from explaining import explain
from reference import masking

from kms_bridge.bridge import Bridge
from kms_bridge.durations import seconds_of
from kms_bridge.endpoints import nobody_at, target_of
from kms_bridge.log import Log
from kms_bridge.plugin import Plugin
from kms_bridge.probe import probe
from kms_bridge.programs import DEFAULT_TIMEOUT, ConfigRefused, read_entries, write_programs
from kms_bridge.reader import end_without_reader

RETRIES_LIMIT = 100
STATUSES = """\
status: 0 done; 1 a probe isn't well, or the configuration is refused; 2 the words; 4 a file or a stream failed"""


def _checked(rule, text: str) -> str:
    """The text, where the rule takes it."""
    try:
        rule(text)
    except ValueError as why:
        raise argparse.ArgumentTypeError(str(why)) from None
    return text


def _endpoint(text: str) -> str:
    return _checked(target_of, text)


def _timeout(text: str) -> str:
    return _checked(seconds_of, text)


def _retries(text: str) -> int:
    if not (text.isascii() and text.isdigit() and int(text) <= RETRIES_LIMIT):
        raise argparse.ArgumentTypeError(f"{text!r} is no number up to {RETRIES_LIMIT}")
    return int(text)


def _parser() -> argparse.ArgumentParser:
    parser = argparse.ArgumentParser(
        prog="kms-bridge",
        description="Answers kmsrest's lines of plugins by a KMS v2 plugin over gRPC.",
        epilog=STATUSES,
        allow_abbrev=False,
    )
    whom = parser.add_mutually_exclusive_group(required=True)
    option = parser.add_argument
    whom.add_argument(
        "--endpoint", type=_endpoint, metavar="unix:///PATH", help="the plugin's socket; unix:///@NAME is abstract"
    )
    whom.add_argument(
        "--into", type=Path, metavar="DIR", help="write a program for each plugin of --config here, and print the words for kmsrest"
    )
    option("--config", type=Path, metavar="C", help="with --into: the configuration")
    option("--timeout", type=_timeout, metavar="3s", help=f"how long each try may take ({DEFAULT_TIMEOUT})")
    option("--retries", type=_retries, default=2, metavar="2", help="how often to retry a call that nobody answers")
    option("--log", metavar="F", help="add a JSON line for each call to this file")
    option("--accept-v2beta1", action="store_true", help="accept a plugin of version v2beta1 as v2")
    option("--probe", action="store_true", help="make each call once, and print how it went")
    return parser


def _read_words(words: list[str]) -> argparse.Namespace:
    parser = _parser()
    asked = parser.parse_args(words)
    if asked.into is not None and asked.config is None:
        parser.error("--into wants --config")
    if asked.into is None and asked.config is not None:
        parser.error("--config goes with --into")
    if asked.into is not None and (asked.probe or asked.timeout):
        parser.error("with --into the timeouts are the configuration's, and nobody is asked")
    return asked


def _write(asked: argparse.Namespace) -> int:
    options = ["--retries", str(asked.retries)]
    if asked.log is not None:
        options += ["--log", str(Path(asked.log).absolute())]
    if asked.accept_v2beta1:
        options.append("--accept-v2beta1")
    bridge = Path(__file__).resolve().parent.parent / "kms-bridge"
    try:
        entries = read_entries(asked.config.read_text(encoding="utf-8"))
        print("\n".join(write_programs(asked.into, entries, bridge, options)))
    except ConfigRefused as why:
        return _ended(1, f"{asked.config}: {why}")
    except UnicodeDecodeError:
        return _ended(1, f"{asked.config}: it isn't UTF-8")
    except OSError as error:
        return _ended(4, f"{asked.config}: {error.strerror}")
    return 0


def _ended(status: int, why: str) -> int:
    """The status, with the line that says why."""
    line = f"kms-bridge: {why}"
    print(line, file=sys.stderr)
    explain([line])
    return status


def _ask(asked: argparse.Namespace) -> int:
    try:
        log = Log(asked.log)
    except OSError as error:
        print(f"kms-bridge: {asked.log}: {error.strerror}", file=sys.stderr)
        return 4
    plugin = Plugin(target_of(asked.endpoint), seconds_of(asked.timeout or DEFAULT_TIMEOUT), asked.retries)
    try:
        if asked.probe:
            return _probed(asked, plugin)
        end_without_reader(sys.stdout.fileno())
        return Bridge(plugin, log, asked.accept_v2beta1).serve(sys.stdin.buffer, sys.stdout.buffer)
    finally:
        plugin.close()


def _probed(asked: argparse.Namespace, plugin: Plugin) -> int:
    """A plugin that is asked for the first time is there, or it is said at once where it isn't: nobody waits for it."""
    nobody = nobody_at(asked.endpoint)
    if nobody is not None:
        return _ended(1, f"no plugin listens at {nobody}")
    return 0 if probe(plugin, asked.accept_v2beta1) else 1


def main(words: list[str]) -> int:
    """Does what the words ask. Answers the status."""
    # An interrupt from the terminal ends it as it ends kmsrest, without a report.
    signal.signal(signal.SIGINT, signal.SIG_DFL)
    masking.guard("kms-bridge")
    # (what was to be wrapped is left in no file where a signal ends it)
    resource.setrlimit(resource.RLIMIT_CORE, (0, 0))
    asked = _read_words(words)
    if sys.stdout is None:
        return _ended(4, "standard output is closed, so nothing could be told; nothing was done")
    try:
        status = _write(asked) if asked.into is not None else _ask(asked)
        sys.stdout.flush()
        return status
    except OSError as error:
        # (what is left in the buffer goes nowhere, and isn't tried again at the end)
        os.dup2(os.open(os.devnull, os.O_WRONLY), sys.stdout.fileno())
        return _ended(4, f"standard output: {error.strerror}")
