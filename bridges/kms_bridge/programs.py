"""Writes a program for each plugin of a configuration, with its endpoint and its timeout."""
import json
import os
import shlex
import stat
from dataclasses import dataclass
from pathlib import Path
from typing import Any
from urllib.parse import quote

import yaml
from reference import masking
from reference.trust import others_who

from kms_bridge.durations import seconds_of
from kms_bridge.endpoints import target_of

DEFAULT_TIMEOUT = "3s"


class ConfigRefused(Exception):
    """The configuration, or the folder, can't be used; the text has no secret of it."""


@dataclass(frozen=True)
class KmsEntry:
    """What a configuration says of a plugin."""

    name: str
    endpoint: str
    timeout: str


def _document(text: str) -> Any:
    """The file's tree. A parser's own message may show a line of the file, so only its place is told."""
    try:
        return json.loads(text) if text.lstrip().startswith("{") else yaml.safe_load(text)
    except json.JSONDecodeError as error:
        raise ConfigRefused(f"it can't be read as JSON at line {error.lineno}") from None
    except yaml.MarkedYAMLError as error:
        line = error.problem_mark.line + 1 if error.problem_mark else "?"
        raise ConfigRefused(f"it can't be read as YAML at line {line}") from None
    except (ValueError, yaml.YAMLError, RecursionError):
        raise ConfigRefused("it can't be read") from None


def _elements(value: Any, name: str) -> list[Any]:
    """The list at a member, none where it isn't there."""
    found = value.get(name) if isinstance(value, dict) else None
    return found if isinstance(found, list) else []


def _entry(element: Any) -> KmsEntry:
    members = element if isinstance(element, dict) else {}
    name, endpoint = members.get("name"), members.get("endpoint")
    timeout = members.get("timeout")
    timeout = DEFAULT_TIMEOUT if timeout is None else timeout
    shown = masking.name(name)
    if members.get("apiVersion") != "v2":
        raise ConfigRefused(f"the plugin {shown} has another apiVersion than v2")
    if not (isinstance(name, str) and isinstance(endpoint, str) and isinstance(timeout, str)):
        raise ConfigRefused(f"of the plugin {shown} the name, the endpoint or the timeout is no text")
    if not (1 <= len(name) <= 253 and all("!" <= char <= "~" and char != ":" for char in name)):
        raise ConfigRefused(f"the plugin {shown} has no name by the rule")
    if "=" in name:
        raise ConfigRefused(f"the plugin {shown} has a = in its name, and can be given no program")
    try:
        target_of(endpoint)
        seconds_of(timeout)
    except ValueError as why:
        raise ConfigRefused(f"the plugin {shown}: {why}") from None
    return KmsEntry(name, endpoint, timeout)


def read_entries(text: str) -> list[KmsEntry]:
    """The plugins of a configuration, each once, as they come."""
    found: dict[str, KmsEntry] = {}
    for entry in _elements(_document(text), "resources"):
        for provider in _elements(entry, "providers"):
            if isinstance(provider, dict) and "kms" in provider:
                plugin = _entry(provider["kms"])
                if found.setdefault(plugin.name, plugin) != plugin:
                    raise ConfigRefused(f"the plugin {masking.name(plugin.name)} stands twice, with other words")
    return list(found.values())


def _file_name(name: str) -> str:
    """A file's name for the plugin's, which may have slashes or begin with a dot."""
    quoted = quote(name, safe="!#$&'()*+,;?@[]^`{|}~<>\"\\")
    return "%2E" + quoted[1:] if quoted.startswith(".") else quoted


def _judge(path: Path) -> None:
    """Refuses what others could change: kmsrest would run it with this user's rights."""
    why = others_who(path)
    if why is not None:
        raise ConfigRefused(f"{why}, and could run another program as you: take a folder of your own, `mkdir -m 700 DIR`")


def _is_kept(program: Path, body: str) -> bool:
    """Whether the program stands there already, with the same words, and for nobody else to change."""
    try:
        held = os.open(program, os.O_RDONLY | os.O_NOFOLLOW | os.O_NONBLOCK | os.O_CLOEXEC)
    except OSError:
        return False
    with os.fdopen(held, "rb") as file:
        if not stat.S_ISREG(os.fstat(held).st_mode) or file.read(len(body.encode()) + 1) != body.encode():
            return False
    _judge(program)
    return True


def _write(program: Path, body: str) -> None:
    made = os.open(program, os.O_WRONLY | os.O_CREAT | os.O_EXCL | os.O_CLOEXEC, 0o700)
    try:
        with os.fdopen(made, "w", encoding="utf-8") as file:
            file.write(body)
    except OSError:
        # (a part of a program would stand in the way of the whole one)
        program.unlink()
        raise


def write_programs(folder: Path, entries: list[KmsEntry], bridge: Path, options: list[str]) -> list[str]:
    """Writes the programs, and answers the words for kmsrest. Another file of a program's name is kept, and nothing is written
    where others could change it."""
    words = []
    for entry in entries:
        program = folder / _file_name(entry.name)
        call = [str(bridge), "--endpoint", entry.endpoint, "--timeout", entry.timeout, *options]
        body = f"#!/bin/sh\n# The plugin {entry.name} of kmsrest, by kms-bridge.\nexec {shlex.join(call)}\n"
        try:
            _judge(folder)
            folder.mkdir(mode=0o700, parents=True, exist_ok=True)
            _judge(folder)
            if not _is_kept(program, body):
                _write(program, body)
        except FileExistsError:
            raise ConfigRefused(f"{program} is there, with other words; remove it first") from None
        except OSError as error:
            raise ConfigRefused(f"{program} can't be written: {error.strerror}") from None
        words.append(f"--plugin={entry.name}={program if '/' in str(program) else f'./{program}'}")
    return words
