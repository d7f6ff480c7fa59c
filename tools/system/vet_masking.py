"""Configurations with known secrets and a typo each, as the old and as the new file of a change: no output holds six characters of
a secret."""
from collections.abc import Iterator

import masking_typos
import vet_cases
from masking_said import Search
from vet_bench import Bench

OUTPUTS = ("text", "json", "github")
VERSIONS = ("1.20", "1.31")


def said(bench: Bench, case: masking_typos.Case, number: int) -> Iterator[tuple[str, str]]:
    """What is said of a file in each place of a change: behind a file in order, in front of one, and behind itself without its typo.
    The forms and the versions go round."""
    own, whole = vet_cases.OLD.encode(), masking_typos.in_yaml(*case.secrets).encode()
    for place, (base, new) in enumerate(((own, case.data), (case.data, own), (whole, case.data))):
        output, version = OUTPUTS[(number + place) % len(OUTPUTS)], VERSIONS[number // len(OUTPUTS) % len(VERSIONS)]
        told = bench.vet(base, new, "--output", output, "--kubernetes", version)
        yield output, told.output + told.errors


def named_after(secret: str, *others: str) -> masking_typos.Case:
    """A file in order, with a key that is called by twelve characters of its own secret."""
    text = vet_cases.of("secrets", vet_cases.key("key1"), vet_cases.key(secret[4:16], secret))
    return masking_typos.Case("a name out of a secret", text.encode(), (secret, *others))


def check(bench: Bench, count: int) -> None:
    search = Search()
    named = Search()
    for number in range(len(OUTPUTS)):
        case = named_after(*(masking_typos.drawn(bench.draw, 32) for _ in range(3)))
        named.judge(case.what, case.secrets, said(bench, case, number))
    bench.expect("a name out of a secret is masked", ([], len(OUTPUTS)), (named.leaks, named.passed))
    for number, case in enumerate(masking_typos.cases(count, bench.draw)):
        search.judge(case.what, case.secrets, said(bench, case, number))
    bench.expect(f"no output about {count} changed files shows a secret", ([], count), (search.leaks[:5], search.passed))
