"""The bridge: a line is read as a request, the plugin is asked, and its answer is a line again."""
import sys
from typing import BinaryIO

from reference import masking

from kms_bridge import lines
from kms_bridge.annotations import first_breach
from kms_bridge.log import WORDS_LIMIT, Log
from kms_bridge.plugin import Answer, CallFailed, Plugin

# A request of kmsrest has some 200,000 bytes at most.
REQUEST_LIMIT = 1 << 20


class Refused(Exception):
    """What the plugin answered can't be used; the text says why."""


class Bridge:
    """Answers lines by a plugin. With `accept_v2beta1` a plugin of that version is told as one of v2."""

    def __init__(self, plugin: Plugin, log: Log, accept_v2beta1: bool):
        self._plugin = plugin
        self._log = log
        self._accept_v2beta1 = accept_v2beta1

    def answer(self, line: bytes) -> bytes:
        """The reply to a line; a refusal where there is none, which is told on standard error too."""
        try:
            request = lines.read_request(line)
        except lines.NoRequest as why:
            self._log.add("none", failed=str(why))
            return self._refusal("request", str(why))
        call = type(request).__name__.lower()
        try:
            match request:
                case lines.Status():
                    return self._status()
                case lines.Encrypt():
                    return self._encrypt(request)
                case lines.Decrypt():
                    return self._decrypt(request)
        except CallFailed as failed:
            self._note_failed(call, request, failed)
            return self._refusal(call, str(failed))
        except Refused as why:
            return self._refusal(call, str(why))

    def _status(self) -> bytes:
        answer = self._plugin.status()
        status = answer.response
        healthz = masking.foreign(status.healthz)
        self._note("status", answer, version=status.version, healthz=healthz[:WORDS_LIMIT], key_id=status.key_id)
        version = "v2" if self._accept_v2beta1 and status.version == "v2beta1" else masking.foreign(status.version)
        return lines.status_line(version, healthz, status.key_id)

    def _encrypt(self, request: lines.Encrypt) -> bytes:
        answer = self._plugin.encrypt(request.plaintext)
        wrapped = answer.response
        breach = first_breach(wrapped.annotations)
        why = None if breach is None else f"the annotation key {masking.foreign(breach)[:WORDS_LIMIT]!r} is no domain name"
        self._note("encrypt", answer, request.uid, key_id=wrapped.key_id, wrapped=len(wrapped.ciphertext), failed=why)
        if why is not None:
            raise Refused(why)
        return lines.encrypt_line(wrapped.ciphertext, wrapped.key_id, dict(wrapped.annotations))

    def _decrypt(self, request: lines.Decrypt) -> bytes:
        answer = self._plugin.decrypt(request.ciphertext, request.key_id, request.annotations)
        self._note("decrypt", answer, request.uid, key_id=request.key_id, wrapped=len(request.ciphertext))
        return lines.decrypt_line(answer.response.plaintext)

    def _note(self, call: str, answer: Answer, uid: str | None = None, **members: object) -> None:
        asking = answer.asking
        self._log.add(
            call, uid=uid, sent=asking.uid or None, tries=asking.tries, seconds=round(asking.seconds, 4), **members
        )

    def _note_failed(self, call: str, request: lines.Request, failed: CallFailed) -> None:
        asking = failed.asking
        self._log.add(
            call,
            uid=getattr(request, "uid", None),
            sent=asking.uid or None,
            tries=asking.tries,
            seconds=round(asking.seconds, 4),
            failed=failed.code,
            words=failed.words[:WORDS_LIMIT],
        )

    def _refusal(self, call: str, text: str) -> bytes:
        shown = "".join(char if " " <= char <= "~" else "?" for char in text[:WORDS_LIMIT])
        print(f"kms-bridge: {call}: {shown}", file=sys.stderr, flush=True)
        return lines.error_line(text)

    def serve(self, requests: BinaryIO, replies: BinaryIO) -> int:
        """Answers line by line to the input's end. Answers the program's status; a fault of what it writes to is the caller's."""
        while True:
            try:
                line = requests.readline(REQUEST_LIMIT + 1)
            except OSError as error:
                print(f"kms-bridge: standard input: {error.strerror}", file=sys.stderr)
                return 4
            if not line:
                return 0
            if len(line) > REQUEST_LIMIT:
                print(f"kms-bridge: a request has more than {REQUEST_LIMIT} bytes", file=sys.stderr)
                return 4
            replies.write(self.answer(line))
            replies.flush()
