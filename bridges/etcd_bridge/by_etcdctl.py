"""etcd by etcdctl, or by a program that is called as it is: `kubectl exec -i .. -- etcdctl ..`."""

import os
import shlex
import subprocess
from collections.abc import Iterator, Mapping

from reference import masking

from .errors import NoAnswer, TooLarge
from .etcd import Etcd
from .etcdctl_json import answer_of, header_of, keys_and_values, parsed
from .keys import KeyRange, KeyValue, Write

# (the second where it is larger than etcdctl sends)
TOO_LARGE = ("request is too large", "message larger than max")
# Of a transaction that is refused so nothing is done; another failure leaves that open.
NOT_DONE = (*TOO_LARGE, "permission denied", "database space exceeded", "too many operations")
PLAIN = range(0x20, 0x7F)
# Seconds that one call may take; etcdctl's own limit doesn't hold for transactions.
DEADLINE = 120


def quoted(data: bytes) -> str:
    """Bytes as etcdctl's transactions read them: a text of Go in double quotes."""
    return '"' + "".join(chr(it) if it in PLAIN and it not in b'"\\' else f"\\x{it:02x}" for it in data) + '"'


def quoted_bytes(data: bytes) -> bytes:
    return quoted(data).encode()


class ByEtcdctl(Etcd):
    """A program, with its first words, and its environment."""

    def __init__(self, program: str, environment: Mapping[str, str]):
        super().__init__()
        self.words = shlex.split(program)
        self.environment = {**environment, "ETCDCTL_API": "3"}
        # Whether each of its endpoints has named its cluster.
        self.has_met_all = False

    def run(self, words: list[str], lines: str = "") -> subprocess.CompletedProcess:
        try:
            return subprocess.run(
                [*self.words, *words, "-w", "json"],
                input=lines.encode(),
                env=self.environment,
                capture_output=True,
                check=False,
                timeout=DEADLINE,
            )
        except OSError as no:
            self.is_unsure = False
            raise NoAnswer(f"{self.words[0]}: {no.strerror}") from None
        except subprocess.TimeoutExpired:
            raise NoAnswer(f"{self.words[0]} gave no answer in {DEADLINE} seconds") from None

    def call(self, words: list[str], lines: str = "", values: list[bytes] = (), is_write: bool = False) -> dict:
        """The answer to these words, with these lines as input, whose values aren't shown where the program repeats them."""
        self.is_unsure = is_write
        done = self.run(words, lines)
        if done.returncode != 0:
            text = done.stderr.decode(errors="replace").strip()
            self.is_unsure = is_write and not any(told in text for told in NOT_DONE)
            too_large = next((told for told in TOO_LARGE if told in text), None)
            kind, said = (TooLarge, too_large) if too_large else (NoAnswer, last_words(text, values))
            raise kind(f"{self.words[0]} ended with {done.returncode}: {said}")
        answer = answer_of(done.stdout, self.words[0])
        self.meet(*header_of(answer, self.words[0]))
        self.is_unsure = False
        return answer

    def meet_all(self) -> None:
        """Each endpoint names its cluster. One that gives no answer is left out from then on, or, where the program's own words name
        the endpoints, they are all asked again before the next write."""
        if self.has_met_all:
            return
        done = self.run(["endpoint", "status"])
        told = parsed(done.stdout, self.words[0]) if done.stdout.strip() else []
        answers = [one for one in told if isinstance(one, dict)] if isinstance(told, list) else []
        if not answers:
            lines = done.stderr.decode(errors="replace").strip().splitlines() or ["no word"]
            raise NoAnswer(f"{self.words[0]} names no endpoint that answers: {masking.foreign(lines[-1])}")
        for one in answers:
            self.meet(*header_of(one.get("Status"), self.words[0]))
        is_ours = not any(word.startswith("--endpoints") for word in self.words)
        if done.returncode != 0 and is_ours:
            self.environment["ETCDCTL_ENDPOINTS"] = ",".join(str(one.get("Endpoint")) for one in answers)
        self.has_met_all = done.returncode == 0 or is_ours

    def told_pages(self, span: KeyRange, size: int) -> Iterator[list[KeyValue]]:
        """Each page but the first begins with the last key of the one before: a key with a NUL behind it is no word."""
        start, again = span.start, 0
        while True:
            if b"\0" in start:
                raise NoAnswer("etcdctl can't be asked for keys from one on that holds a NUL")
            words = ["get", *map(os.fsdecode, (start, span.end)), "--limit", str(size + again)]
            answer = self.call([*words, "--rev", str(self.revision)] if self.revision else words)
            found = list(keys_and_values(answer))
            yield found[again:]
            if not answer.get("more"):
                return
            if not found[again:]:
                raise NoAnswer("etcd tells that there is more, and tells no key")
            start, again = found[-1].key, 1

    def swap(self, writes: list[Write], with_values: bool = True) -> list[KeyValue | None] | None:
        self.meet_all()
        holds = [one for it in writes for one in compares(it, with_values)]
        puts = [f"put --ignore-lease -- {quoted(it.key)} {quoted(it.value)}" for it in writes]
        values = [one for it in writes for one in (it.value, it.old)]
        answer = self.transaction(holds, puts, [it.key for it in writes], values)
        return None if answer.get("succeeded") is True else seen(answer)

    def now(self, keys: list[bytes]) -> list[KeyValue | None]:
        return seen(self.transaction([], [look(key) for key in keys], []))

    def transaction(self, holds: list[str], puts: list[str], looked: list[bytes], values: list[bytes] = ()) -> dict:
        parts = (holds, puts, [look(key) for key in looked])
        lines = "".join("".join(line + "\n" for line in part) + "\n" for part in parts)
        return self.call(["txn"], lines, values, is_write=bool(looked))


def last_words(text: str, values: list[bytes]) -> str:
    """The last line that a program wrote, without the values that it was given."""
    return masking.foreign(text.splitlines()[-1], [*values, *map(quoted_bytes, values)]) if text else "no word"


def compares(write: Write, with_values: bool) -> Iterator[str]:
    """What must hold of a key, so that it is put, in the words of etcdctl's transactions."""
    key = quoted(write.key)
    yield f"mod({key}) = {quoted(str(write.mod).encode())}"
    if write.create is not None:
        yield f"create({key}) = {quoted(str(write.create).encode())}"
    if with_values:
        yield f"value({key}) = {quoted(write.old)}"


def look(key: bytes) -> str:
    return f"get -- {quoted(key)}"


def seen(answer: dict) -> list[KeyValue | None]:
    """What each look of a transaction found."""
    found = []
    responses = answer.get("responses", ())
    for one in responses if isinstance(responses, list) else ():
        # (etcdctl writes Go's fields of an answer's union as they are named there)
        inside = one.get("Response", one) if isinstance(one, dict) else None
        if not isinstance(inside, dict):
            raise NoAnswer("etcd's answer to a transaction doesn't tell what stands there")
        ranges = inside.get("response_range") or inside.get("ResponseRange") or {}
        found.append(next(keys_and_values(ranges), None))
    return found
