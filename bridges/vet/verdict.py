"""The judge's verdict on a change, over a store of which nothing is known: each API server gets the new file, one after another.
Where one may not, or has to be led there, the steps between the two files."""

from dataclasses import dataclass

from reference import configuration, rollout
from reference.board import Board

from .document import Document, Entries, line_of_class, pattern_text, provider_text
from .lints import BY_CODE, Finding

PASS = "pass"
EARLY = "too early: go by the steps below"


@dataclass(frozen=True)
class Judged:
    """The verdict on each reload up to the first that is refused; the number of a reload is that of its API server."""

    verdicts: list[str]

    @property
    def is_refused(self) -> bool:
        return self.verdicts[-1] != PASS


@dataclass(frozen=True)
class Step:
    """What each API server gets, one after another; of a rewrite nothing is given."""

    name: str
    entries: Entries

    @property
    def shown(self) -> str:
        """The entries as `check` prints them, in one line."""
        parts = [(map(pattern_text, listed), map(provider_text, providers)) for listed, providers in self.entries]
        return "; ".join(f"{','.join(listed)}: {','.join(providers)}" for listed, providers in parts)


@dataclass(frozen=True)
class Way:
    """The steps from one file to the other, or why there are none."""

    steps: list[Step]
    why_none: str = ""


def judged(base: Entries, new: Entries, replicas: int) -> Judged:
    """Step by step, as `kmsrest judge` over an empty store."""
    has, verdicts = [base] * replicas, []
    for number in range(replicas):
        board = Board(replicas)
        for replica, entries in enumerate(has):
            # (they go together: each passed beside the others, or is the same as they)
            board.add(replica, entries)
        verdicts.append(board.verdict(number, new))
        if verdicts[-1] != PASS:
            break
        has[number] = new
    return Judged(verdicts)


def way(base: Entries, new: Entries) -> Way:
    """What `kmsrest plan` puts between the two."""
    classes = rollout.classes_of(base, new)
    clash = rollout.first_clash(classes, base, new)
    if clash:
        return Way([], f"{pattern_text(clash[0])} have {provider_text(clash[1])} with another secret in each file")
    wide, turned = rollout.merged(classes, base, new), rollout.merged(classes, new, base)
    which = rollout.passed_limit(wide)
    if which:
        word, most = configuration.LIMITS[which]
        return Way([], f"a file that reads both would have more than {most} {word}: go by a file in between")
    return Way([Step("wide", wide), Step("turned", turned), Step("rewrite", []), Step("to", new)])


# ---- what is found


def finding(document: Document, code: str, found: str, text: str, do: str) -> Finding:
    """A finding at the providers of a class."""
    return Finding(BY_CODE[code], document.name, line_of_class(document, found), text, do)


def refusal(new: Document, number: int, verdict: str) -> Finding:
    """A refused reload: over a store without rows a verdict is of an API server, a class and a provider."""
    code, other, found, who = verdict.split(" ")
    kind, _, name = who.partition(":")
    writer, where = provider_text((kind, name)), pattern_text(found)
    if code == "unread":
        text = f"API server {number} would write {where} by {writer}, which API server {other} can't read yet"
    else:
        text = f"API server {other} writes {where} by {writer}, which API server {number} couldn't read any more"
    return finding(new, code, found, text, EARLY)


def own_writers(base: Document, new: Document) -> list[Finding]:
    """What an API server wrote by until it read the new file, which doesn't read that. Where there are several, the verdict of another
    one tells it; of one alone none does."""
    found = []
    for one in rollout.classes_of(base.entries, new.entries):
        writer = rollout.list_at(base.entries, one)[0]
        if writer not in rollout.list_at(new.entries, one):
            text = f"API server 0 writes {pattern_text(one)} by {provider_text(writer)}: what is stored that way can't be read after its restart"
            found.append(finding(new, "own-writer", one, text, "turn first, by the steps below"))
    return found


def clashes(base: Document, new: Document) -> list[Finding]:
    clash = rollout.first_clash(rollout.classes_of(base.entries, new.entries), base.entries, new.entries)
    if not clash:
        return []
    text = f"{pattern_text(clash[0])} had {provider_text(clash[1])} with another secret: a stored value names its key alone"
    return [finding(new, "clash", clash[0], text, "give the new key another name")]


def dropped_readers(base: Document, new: Document) -> list[Finding]:
    """What the new file reads no more, though nobody writes it: whether it is stored an etcd alone can tell."""
    found = []
    for one in rollout.classes_of(base.entries, new.entries):
        kept, old = rollout.list_at(new.entries, one), rollout.list_at(base.entries, one)
        for provider in old[1:]:
            if not any(other[:2] == provider[:2] for other in kept):
                still = "plain" if provider[0] == "identity" else provider_text(provider)
                by = f"{pattern_text(one)} stored by {provider_text(provider)}"
                text = f"{by} can't be read any more, and only etcd tells whether there are any"
                do = f"ask first: etcd-audit --config {base.name} --still {still}, and OPERATORS, 'When an old key may go'"
                found.append(finding(new, "drops-reader", one, text, do))
    return found


def findings(base: Document, new: Document, replicas: int) -> tuple[Judged, Way | None, list[Finding]]:
    """The verdict, the way where one is wanted, and what is found of the two."""
    told = judged(base.entries, new.entries, replicas)
    found = clashes(base, new)
    if told.is_refused:
        found.append(refusal(new, len(told.verdicts) - 1, told.verdicts[-1]))
        return told, way(base.entries, new.entries), found
    own = own_writers(base, new)
    found += own + dropped_readers(base, new)
    return told, way(base.entries, new.entries) if own else None, found
