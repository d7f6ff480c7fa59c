"""May this change of an EncryptionConfiguration be merged? It tells whether API servers that all have BASE may get NEW one after
another, what an API server refuses in NEW or reads otherwise than `kmsrest check`, and what is allowed and dangerous. It asks no
cluster, no etcd and no built program, and shows no secret."""

import argparse
import datetime
import errno
import os
import re
import sys

from reference import masking
from reference.words import MOST_REPLICAS

from . import dangers, document, server_rules, verdict
from .document import Document
from .lints import BY_CODE, NEWEST, OLDEST, TABLE, Finding, Severity
from .outputs import OUTPUTS, Report, lines

NAME = "kmsrest-vet"
WARNINGS = tuple(lint.code for lint in TABLE if lint.severity is Severity.WARNING)
EPILOG = (
    "An empty BASE, as /dev/null, stands for API servers without a configuration. docs/FORMATS.md, 'What vet finds', has the codes. "
    "Status: 0 go on; 1 refused; 2 the words; 3 a warning with --strict."
)


def replicas(text: str) -> int:
    if not re.fullmatch(r"[1-9][0-9]?", text, re.A) or int(text) > MOST_REPLICAS:
        raise argparse.ArgumentTypeError(f"{text!r} is no number from 1 to {MOST_REPLICAS}")
    return int(text)


def minor_version(text: str) -> int:
    found = re.fullmatch(r"v?1\.([1-9][0-9]{0,2})(\.[0-9]+)?", text, re.A)
    if not found or int(found[1]) < OLDEST:
        raise argparse.ArgumentTypeError(f"{text!r} is no version from 1.{OLDEST} on, such as 1.{NEWEST}")
    return int(found[1])


def parsed(arguments: list[str]) -> argparse.Namespace:
    parser = argparse.ArgumentParser(prog=NAME, allow_abbrev=False, description=__doc__, epilog=EPILOG)
    parser.add_argument("base", metavar="BASE", help="the EncryptionConfiguration that all API servers have")
    parser.add_argument("new", metavar="NEW", help="the configuration that they are to have")
    known = f"the API servers' version (1.{NEWEST}, the newest that is known)"
    count = f"how many API servers there are, 1 to {MOST_REPLICAS} (3)"
    parser.add_argument("--replicas", type=replicas, default=3, metavar="N", help=count)
    parser.add_argument("--kubernetes", type=minor_version, default=NEWEST, metavar="1.NN", help=known)
    form = "how to print: text, json, or github for annotations (text)"
    parser.add_argument("--output", choices=tuple(OUTPUTS), default="text", help=form)
    parser.add_argument("--strict", action="store_true", help="end with 3 if there is a warning and no error")
    allowed = "silence the warnings of this code; may be repeated"
    parser.add_argument("--allow", action="append", choices=WARNINGS, default=[], metavar="CODE", help=allowed)
    parser.add_argument("--as", dest="shown", metavar="FILE", help="the name to print for NEW, as the repository has it")
    return parser.parse_args(arguments)


def breach(found: Document) -> list[Finding]:
    """The rule of `check` that a file breaks: nothing more can be told of such a file."""
    no = found.breach
    told = [Finding(BY_CODE["breach"], found.name, no.line, f"{no.answer}: {no.found}", no.do)]
    if server_rules.is_colon(found):
        told.append(Finding(BY_CODE["colon"], found.name, no.line, server_rules.COLON, "give it a name without a colon"))
    return told


def report(words: argparse.Namespace, base: Document, new: Document) -> Report:
    """All that is found, but for what is allowed, in the order of the files' lines."""
    judged = way = None
    found = [one for it in (base, new) if it.breach for one in breach(it)]
    if not found:
        judged, way, found = verdict.findings(base, new, words.replicas)
        found += server_rules.base_findings(base, words.kubernetes)
    if not new.breach:
        found += server_rules.findings(new)
        found += dangers.findings(base, new, datetime.date.today())
    kept = [it for it in found if it.lint.holds(words.kubernetes) and it.lint.code not in words.allow]
    kept.sort(key=lambda it: (it.file != base.name, it.line, TABLE.index(it.lint), it.text))
    return Report(base.name, new.name, words.replicas, words.kubernetes, judged, way, kept, words.strict)


def work(arguments: list[str]) -> int:
    words = parsed(arguments)
    try:
        base = document.read(words.base, words.base, may_be_empty=True)
        new = document.read(words.new, words.shown or words.new)
    except OSError as no:
        print(f"{NAME}: {no.filename}: {no.strerror}", file=sys.stderr)
        return 1
    told = report(words, base, new)
    for line in lines(told, words.output, [base, new]):
        print(line)
    return told.status


def main(arguments: list[str]) -> int:
    masking.guard(NAME)
    try:
        if sys.stdout is None:
            raise OSError(errno.EBADF, os.strerror(errno.EBADF))
        status = work(arguments)
        sys.stdout.flush()
        return status
    except OSError as no:
        # (what is left in the buffer goes nowhere, and isn't tried again at the end)
        if sys.stdout is not None:
            os.dup2(os.open(os.devnull, os.O_WRONLY), sys.stdout.fileno())
        # (what reads our output may have enough)
        if not isinstance(no, BrokenPipeError):
            print(f"{NAME}: standard output: {no.strerror}", file=sys.stderr)
        return 1
