"""Plugins as programs that answer lines (docs/FORMATS.md, "Lines of plugins"), asked to unwrap alone."""

import base64
import json
import os
import select
import shlex
import subprocess
import time

from reference import masking
from reference.plugins import Kept

from .errors import Refused

MOST_LINE = 131_072
MOST_WORDS = 300
PIECE = 65_536
# Seconds for an answer; kms-bridge, with its own deadlines and tries, is done before.
PATIENCE = 60


class Link:
    """A program that was started, and the requests that it was sent."""

    def __init__(self, name: str, program: str):
        self.name, self.uid = name, 0
        try:
            self.child = subprocess.Popen(
                [program], stdin=subprocess.PIPE, stdout=subprocess.PIPE, stderr=subprocess.DEVNULL, bufsize=0
            )
        except OSError as no:
            raise Refused(f"the plugin {name}: {program}: {no.strerror}") from None

    def status(self):
        """(part of what `Kept` wants of a link; nothing here publishes a seed)"""
        raise NotImplementedError

    wrap = status

    def unwrap(self, key_id: bytes, annotations: dict[bytes, bytes], source: bytes) -> bytes:
        self.uid += 1
        pairs = {key.decode(): encoded(value) for key, value in sorted(annotations.items())}
        request = {
            "annotations": pairs,
            "call": "decrypt",
            "ciphertext": encoded(source),
            "key_id": key_id.decode(),
            "uid": str(self.uid),
        }
        reply = self.ask(request)
        try:
            return base64.b64decode(reply["plaintext"], validate=True)
        except (KeyError, TypeError, ValueError):
            why = shlex.quote(masking.foreign(reply.get("error"))[:MOST_WORDS])
            raise Refused(f"the plugin {self.name} unwraps nothing: {why}") from None

    def ask(self, request: dict) -> dict:
        """The reply to one line."""
        try:
            self.child.stdin.write(json.dumps(request, separators=(",", ":"), ensure_ascii=False).encode() + b"\n")
            reply = json.loads(self.line())
        except (OSError, ValueError, RecursionError):
            raise Refused(f"the plugin {self.name} answers no line that can be read") from None
        if not isinstance(reply, dict):
            raise Refused(f"the plugin {self.name} answers no object")
        return reply

    def line(self) -> bytes:
        """What the plugin writes up to a line's end, for which nobody waits longer than kmsrest's user would."""
        data, end = b"", time.monotonic() + PATIENCE
        while b"\n" not in data and len(data) <= MOST_LINE:
            if not select.select([self.child.stdout], (), (), max(0, end - time.monotonic()))[0]:
                raise Refused(f"the plugin {self.name} gave no answer within {PATIENCE} seconds")
            piece = os.read(self.child.stdout.fileno(), PIECE)
            if not piece:
                break
            data += piece
        return data

    def close(self) -> None:
        self.child.stdin.close()
        self.child.stdout.close()
        self.child.kill()
        self.child.wait()


class Links:
    """A link to each plugin, made when it is first asked for. A source is unwrapped once."""

    def __init__(self, programs: dict[str, str]):
        self.programs = programs
        self.made: dict[str, Kept] = {}

    def of(self, name: str) -> Kept:
        if name not in self.made:
            if name not in self.programs:
                raise Refused(f"values of kms:{name} open by its plugin alone: --plugin {name}=PROGRAM")
            self.made[name] = Kept(Link(name, self.programs[name]))
        return self.made[name]

    def close(self) -> None:
        for kept in self.made.values():
            kept.link.close()


def encoded(data: bytes) -> str:
    return base64.b64encode(data).decode()
