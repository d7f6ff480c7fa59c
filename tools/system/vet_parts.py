"""The parts of check-vet."""
import json
import os
import re
import resource

import vet_cases
from support import TOP, call, kmsrest_program
from vet_bench import PROGRAM, Bench

import vet_examples
import vet_masking
from masking_said import Search
from vet.lints import BY_CODE, NEWEST, TABLE, Severity
from vet_cases import BOTH, LAST, NEW, OFF, OLD

DOCUMENT = TOP / "docs" / "FORMATS.md"
SECTION = "## What vet finds"
# Processor seconds of a call: a quarter of one where this was measured.
MOST_SECONDS = 3.0


# ---- each code


def cases(bench: Bench) -> None:
    told, silent = set(), set()
    for case in vet_cases.ALL:
        found = bench.vet(case.base or OLD, case.new, *case.words, mode=case.mode)
        wanted = [] if case.line is None else [case.line]
        bench.expect(f"{case.code}: {case.what}", wanted, found.lines_of(case.code))
        (silent if case.line is None else told).add(case.code)
        severities = {it["severity"] for it in found.whole["findings"] if it["code"] == case.code}
        if case.line is not None and BY_CODE[case.code].severity is Severity.ERROR:
            bench.expect(f"{case.code}: it refuses", ({"error"}, 1), (severities, found.status))
    bench.expect("each code has a case", [], sorted(set(BY_CODE) - told))
    bench.expect("each code has a case beside it that is silent", [], sorted(set(BY_CODE) - silent))
    search = Search()
    for number, case in enumerate(vet_cases.ALL):
        output = vet_masking.OUTPUTS[number % len(vet_masking.OUTPUTS)]
        told = bench.vet(case.base or OLD, case.new, *case.words, "--output", output)
        search.judge(case.what, (vet_cases.K1, vet_cases.K2, vet_cases.K3), [(output, told.output)])
    bench.expect("no case shows a secret", ([], len(vet_cases.ALL)), (search.leaks, search.passed))


# ---- statuses and words


def statuses(bench: Bench) -> None:
    danger = BOTH.replace("secrets", "secret")
    for what, base, new, more, wanted in (
        ("go on", OLD, BOTH, (), 0),
        ("go on, with --strict", OLD, BOTH, ("--strict",), 0),
        ("refused", OLD, NEW, (), 1),
        ("refused, with --strict", OLD, NEW, ("--strict",), 1),
        ("a warning", OFF, danger, ("--replicas", "1"), 0),
        ("a warning with --strict", OFF, danger, ("--replicas", "1", "--strict"), 3),
        ("a warning that is allowed, with --strict", OFF, danger, ("--replicas", "1", "--strict", "--allow", "unknown-resource"), 0),
        ("no configuration before", "", OFF, (), 0),
        ("no configuration before, and a key at once", "", OLD, (), 1),
        ("no configuration behind", OLD, "", (), 1),
        ("17 API servers", OLD, BOTH, ("--replicas", "17"), 2),
        ("no API server", OLD, BOTH, ("--replicas", "0"), 2),
        ("a version that has no such kind", OLD, BOTH, ("--kubernetes", "1.12"), 2),
        ("a version that isn't known yet", OLD, BOTH, ("--kubernetes", f"1.{NEWEST + 9}"), 0),
        ("a patch of a version", OLD, BOTH, ("--kubernetes", "v1.31.4"), 0),
        ("an error that is allowed", OLD, NEW, ("--allow", "unread"), 2),
        ("a code that isn't there", OLD, NEW, ("--allow", "unred"), 2),
        ("an output that isn't there", OLD, NEW, ("--output", "xml"), 2),
    ):
        bench.expect(f"status: {what}", wanted, bench.vet(base, new, *more).status)
    bench.expect("status: an empty base is one without keys", bench.vet(OFF, BOTH).whole["verdict"], bench.vet("", BOTH).whole["verdict"])
    gone = bench.within(bench.room / "gone", bench.file("new.yaml", OLD))
    bench.expect("status: a file that isn't there", (1, "", f"kmsrest-vet: {bench.room / 'gone'}: No such file or directory\n"), (gone.status, gone.output, gone.errors))


def words(bench: Bench) -> None:
    """The front end's word is the program, needs no build, and takes a moment of a processor."""
    base, new = bench.file("base.yaml", OLD), bench.file("new.yaml", NEW)
    before = resource.getrusage(resource.RUSAGE_CHILDREN)
    by_program = call([PROGRAM, base, new, "--output", "json"])
    after = resource.getrusage(resource.RUSAGE_CHILDREN)
    seconds = after.ru_utime + after.ru_stime - before.ru_utime - before.ru_stime
    by_front_end = call([TOP / "kmsrest", "vet", base, new, "--output", "json"])
    bench.expect("./kmsrest vet is the program", (1, by_program.output, ""), (by_front_end.status, by_front_end.output, by_front_end.errors))
    bench.expect(f"it takes at most {MOST_SECONDS} s", True, seconds <= MOST_SECONDS)
    named = set(re.findall(r"--[a-z]+", call([PROGRAM, "--help"]).output.decode())) - {"--help"}
    page = (TOP / "help" / "text" / "vet.txt").read_text(encoding="utf-8")
    bench.expect("help has each of its options", [], sorted(option for option in named if option not in page))
    by_pipe = call(["bash", "-c", f"'{PROGRAM}' <(cat '{base}') '{new}' --output json"])
    bench.expect("a base out of a pipe", json.loads(by_program.output)["findings"], json.loads(by_pipe.output)["findings"])
    piped = call(["bash", "-c", f"'{PROGRAM}' '{base}' '{new}' | head -n 0"])
    bench.expect("a reader that leaves is no fault of Python", "", piped.errors)
    for what, where, why in (("is full", ">/dev/full", "No space left on device"), ("is closed", ">&-", "Bad file descriptor")):
        found = call(["bash", "-c", f"'{PROGRAM}' '{base}' '{new}' {where}"])
        bench.expect(f"standard output {what}", (1, f"kmsrest-vet: standard output: {why}\n"), (found.status, found.errors))


# ---- outputs


def outputs(bench: Bench) -> None:
    name = "deploy/a,b:50%.yaml"
    text = bench.vet(OLD, NEW, "--output", "text", "--as", name).output.splitlines()
    bench.expect("text: the place, the severity and the code", True, text[0].startswith(f"{name}:5: error: unread: API server 0 would write secrets by aescbc:key2,"))
    bench.expect("text: the step between", "step 1: each API server gets wide: secrets: aescbc:key1,identity,aescbc:key2; *.*: identity", text[1])
    bench.expect("text: the last line", "refused: 1 error, 0 warnings", text[-1])
    whole = bench.vet(OLD, NEW).whole
    bench.expect("json: the verdict", ("unread 1 secrets aescbc:key2", 0, 4), (whole["verdict"], whole["reload"], len(whole["steps"])))
    bench.expect("json: a pass", ("pass", None, []), tuple(bench.vet(OLD, BOTH).whole[it] for it in ("verdict", "reload", "steps")))
    named = "# production-2 replaces key1 at statefulsets.apps\n" + NEW.replace("key2", "production-2")
    whole = bench.vet(OLD.replace("secrets", "statefulsets.apps"), named.replace("secrets", "statefulsets.apps")).whole
    bench.expect("json: names that a comment has too", "unread 1 statefulsets.apps aescbc:production-2", whole["verdict"])
    clash = bench.vet(OLD, vet_cases.OTHER).whole
    bench.expect("json: a clash has no steps", True, clash["steps"][0].startswith("steps: there are none: secrets have aescbc:key1"))
    lines = bench.vet(OLD, NEW, "--output", "github", "--as", name).output.splitlines()
    bench.expect("github: an annotation", True, lines[0].startswith("::error file=deploy/a%2Cb%3A50%25.yaml,line=5,title=kmsrest-vet unread::API server 0"))
    bench.expect("github: the steps in one", (1, 3), (sum(it.startswith("::notice ") for it in lines), lines[1].count("%0A")))
    bench.expect("github: a warning", True, "::warning file=" in bench.vet(NEW, LAST, "--output", "github").output)


# ---- the document


def rows(text: str, heading: str) -> list[list[str]]:
    """The cells of the tables of a section."""
    section = re.split(r"^#{2,3} ", text.split(f"\n{heading}\n", 1)[1], flags=re.M)[0]
    found = [[cell.strip() for cell in re.split(r"(?<!\\)\|", line)[1:-1]] for line in section.splitlines() if line.startswith("|")]
    return [cells for cells in found if re.fullmatch(r"`[a-z0-9-]+`", cells[0])]


def document(bench: Bench) -> None:
    text = DOCUMENT.read_text(encoding="utf-8")
    written = {cells[0].strip("`"): tuple(cells[1:3] + cells[-1:]) for cells in rows(text, SECTION)}
    own = {lint.code: (lint.severity.value, lint.versions, lint.seen.value) for lint in TABLE}
    bench.expect("FORMATS has the codes of the table", own, written)
    for heading in ("### Accepted here, refused there", "### Both accept, and read otherwise"):
        classes = [cells[0].strip("`") for cells in rows(text, heading)]
        bench.expect(f"vet has each class of '{heading[4:]}'", [], [it for it in classes if it not in BY_CODE] or (not classes and ["none"]) or [])
    bench.expect("FORMATS names the newest version", True, f"1.{NEWEST}" in text.split(SECTION, 1)[1][:4000])


# ---- beside others


def examples(bench: Bench) -> None:
    vet_examples.check(bench)


def pairs(bench: Bench, count: int) -> None:
    import vet_pairs

    if not os.access(kmsrest_program(), os.X_OK):
        print(f"(there is no program {kmsrest_program()}: its verdicts weren't asked)")
        return
    vet_pairs.check(bench, count)


def masking(bench: Bench, count: int) -> None:
    vet_masking.check(bench, count)


def servers(bench: Bench, count: int) -> None:
    import vet_servers
    from vet_bench import peer_program

    program = peer_program()
    if program is None:
        print("(Kubernetes' own code isn't built here: tools/cross/check-with-api-server --build)")
        return
    vet_servers.check(bench, program, count)
