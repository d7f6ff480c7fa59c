"""Pairs of configurations that are drawn: vet's verdict is what the built program's `judge` says over an empty store, step by step,
and its way is the program's plan."""
import collections
import random
from collections.abc import Iterator
from pathlib import Path

from masking_said import loaded
from reference import configuration, rollout
from support import TOP
from vet import verdict
from vet_bench import Bench

PLANS = loaded(TOP / "tools" / "system" / "random-plans")
# A step of a plan, and the one before it.
STEPS = (("from", "wide"), ("wide", "turned"), ("turned", "to"), ("from", "turned"), ("wide", "to"), ("from", "to"), ("to", "from"))


def drawn(draw: random.Random) -> Iterator[tuple[bytes, bytes]]:
    """Pairs of which some are a plan's steps, in their order and out of it."""
    while True:
        found = PLANS.Rollout(draw)
        texts = {name: text.encode() for name, text in found.texts.items()}
        for name in ("wide", "turned"):
            if name in found.entries and rollout.passed_limit(found.entries[name]) is None:
                texts[name] = rollout.settings_text(found.entries[name])
        usable = [pair for pair in STEPS if pair[0] in texts and pair[1] in texts]
        one, other = draw.choice(usable)
        yield texts[one], texts[other]


def by_program(bench: Bench, files: tuple[Path, Path], replicas: int) -> tuple[str, int | None]:
    """The last verdict of `kmsrest judge`, and which reload it refuses."""
    base, new = files
    store, has = bench.file("store", b""), [base] * replicas
    for number in range(replicas):
        named = [word for file in has for word in ("--replica", file)]
        done = bench.program("judge", "--store", store, *named, "--reload", f"{number}={new}")
        said = done.output.decode().strip() or done.errors.strip()
        if done.status:
            return said, number
        has[number] = new
    return said, None


def same_way(bench: Bench, files: tuple[Path, Path], replicas: int) -> bool:
    """Whether the program's plan has the files of vet's way, or none where that has none."""
    base, new = (configuration.read(file.read_bytes()) for file in files)
    way = verdict.way(base, new)
    for name in ("wide", "turned"):
        done = bench.program("plan", "--from", files[0], "--to", files[1], "--replicas", replicas, "--show", name)
        entries = configuration.read(done.output) if done.status == 0 else None
        if entries != next((step.entries for step in way.steps if step.name == name), None):
            return False
    return True


def check(bench: Bench, count: int) -> None:
    draws, seen, wrong = drawn(bench.draw), collections.Counter(), []
    for number in range(count):
        texts, replicas = next(draws), bench.draw.randint(1, 5)
        files = bench.file("base.json", texts[0]), bench.file("new.json", texts[1])
        whole = bench.within(*files, "--replicas", replicas, "--output", "json").whole
        own, theirs = (whole["verdict"], whole["reload"]), by_program(bench, files, replicas)
        seen[theirs[0].split(" ")[0]] += 1
        if own != theirs:
            wrong.append((number, own, theirs))
        if theirs[1] is not None and not same_way(bench, files, replicas):
            wrong.append((number, "another plan"))
    bench.expect(f"{count} verdicts are the program's ({dict(sorted(seen.items()))})", [], wrong)
    bench.expect("each verdict came", {"pass", "unread", "drops-writer"}, set(seen))
