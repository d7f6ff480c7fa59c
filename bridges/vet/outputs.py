"""How a report is printed: for people, as JSON, and as annotations of a pull request. No output shows six characters in a row of
what may be a secret of the two files."""

import functools
import json
from collections.abc import Iterator
from dataclasses import dataclass
from pathlib import Path

from reference import masking

from .document import Document, open_words, provider_text
from .lints import Finding, Severity
from .verdict import PASS, Judged, Way

OWN = Path(__file__).resolve().parent
COMMANDS = {Severity.ERROR: "error", Severity.WARNING: "warning", Severity.NOTE: "notice"}


@dataclass(frozen=True)
class Report:
    """What is told of a change: the two files as they are shown, how they were looked at, the verdict, the way, and what was found."""

    base: str
    new: str
    replicas: int
    minor: int
    judged: Judged | None
    way: Way | None
    findings: list[Finding]
    is_strict: bool

    def count(self, severity: Severity) -> int:
        return sum(it.lint.severity is severity for it in self.findings)

    @property
    def status(self) -> int:
        if self.count(Severity.ERROR):
            return 1
        return 3 if self.is_strict and self.count(Severity.WARNING) else 0


def number(count: int, what: str) -> str:
    return f"{count} {what}{'' if count == 1 else 's'}"


def last_line(report: Report) -> str:
    counts = f"{number(report.count(Severity.ERROR), 'error')}, {number(report.count(Severity.WARNING), 'warning')}"
    begin = {0: "go on", 1: "refused", 3: "stopped by --strict"}[report.status]
    return f"{begin}: {counts}"


def steps(report: Report) -> Iterator[str]:
    """The way, a line each."""
    if report.way is None:
        return
    if not report.way.steps:
        yield f"steps: there are none: {report.way.why_none}"
        return
    for place, step in enumerate(report.way.steps, 1):
        if step.name == "rewrite":
            yield f"step {place}: re-encrypt what is stored, until nothing is left"
        elif step.name == "to":
            yield f"step {place}: each API server gets {report.new}"
        else:
            yield f"step {place}: each API server gets {step.name}: {step.shown}"


def verdict(report: Report) -> str | None:
    """The judge's last verdict, as it prints it."""
    if report.judged is None:
        return None
    words = report.judged.verdicts[-1].split(" ")
    kind, _, name = words[-1].partition(":")
    return PASS if words == [PASS] else " ".join([*words[:-1], provider_text((kind, name))])


def as_text(report: Report) -> Iterator[str]:
    for it in report.findings:
        place = f"{it.file}:{it.line}" if it.line else it.file
        yield f"{place}: {it.lint.severity.value}: {it.lint.code}: {it.text}; {it.do}"
    yield from steps(report)
    yield last_line(report)


def as_json(report: Report) -> Iterator[str]:
    found = [
        {
            "code": it.lint.code,
            "severity": it.lint.severity.value,
            "kubernetes": it.lint.versions,
            "file": it.file,
            "line": it.line or None,
            "text": it.text,
            "do": it.do,
        }
        for it in report.findings
    ]
    whole = {
        "vet": 1,
        "base": report.base,
        "new": report.new,
        "replicas": report.replicas,
        "kubernetes": f"1.{report.minor}",
        "verdict": verdict(report),
        "reload": len(report.judged.verdicts) - 1 if report.judged and report.judged.is_refused else None,
        "steps": list(steps(report)),
        "findings": found,
        "errors": report.count(Severity.ERROR),
        "warnings": report.count(Severity.WARNING),
        "status": report.status,
    }
    yield json.dumps(whole)


def escaped(text: str, more: str = "") -> str:
    """A text as a workflow's command takes it; of a property `more` signs have a meaning too."""
    for mark in "%\r\n" + more:
        text = text.replace(mark, f"%{ord(mark):02X}")
    return text


def annotation(command: str, file: str, line: int, title: str, text: str) -> str:
    place = f"file={escaped(file, ':,')}" + (f",line={line}" if line else "")
    return f"::{command} {place},title={escaped(title, ':,')}::{escaped(text)}"


def as_github(report: Report) -> Iterator[str]:
    for it in report.findings:
        yield annotation(COMMANDS[it.lint.severity], it.file, it.line, f"kmsrest-vet {it.lint.code}", f"{it.text}; {it.do}")
    told = list(steps(report))
    if told:
        yield annotation("notice", report.new, 0, "kmsrest-vet steps", "\n".join(told))
    yield last_line(report)


OUTPUTS = {"text": as_text, "json": as_json, "github": as_github}


@functools.cache
def own_texts() -> str:
    """The sources of vet: what stands there may stand in an output whatever the files hold."""
    return "\n".join(path.read_text(encoding="utf-8") for path in sorted(OWN.glob("*.py")))


def lines(report: Report, output: str, documents: list[Document]) -> list[str]:
    """The lines of an output, without what may be a secret in the files' texts."""
    pieces = [piece for it in documents for piece in masking.pieces(it.data.decode(errors="replace"))]
    # (with the blanks around it that a comment has too)
    known = "\n".join([own_texts(), report.base, report.new, *(f" {word} " for word in open_words(documents))])
    return masking.hide("\n".join(OUTPUTS[output](report)), pieces, known).split("\n")
