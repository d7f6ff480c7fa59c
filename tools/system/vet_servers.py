"""Changed configurations and odd scalars, read by Kubernetes' own code and by vet: of what `check` reads, vet says for that version
that the API server refuses it exactly where it does."""
import collections
import random
import re
from collections.abc import Iterator
from pathlib import Path

import mutations
import own_files
from asking import Peer
from vet import document, server_rules
from vet.lints import Seen, Severity
from vet_bench import Bench

# The tried version; the file's own words of scalars that YAML may take for something else.
MINOR = 20
PLAIN = """y Y n N yes Yes YES on off On OFF true True TRUE false ~ null Null NULL nULL 1 0 01 08 09 0x1F 0xG 0b101 0b12 0o17 0o18 1_000
1__0 _1 1_ 1e3 1E3 1e 1.5 1. .5 . .. -1 +1 -0x1F +0b1 -0b1 - -- 1:20 2001-01-01 2001-01-01T00:00:00Z .inf -.inf +.INF .nan .NaN 1e400
99999999999999999999 18446744073709551615 18446744073709551616 -9223372036854775808 -9223372036854775809 = a- -a 0. 00 0_0 +.5 -.5e3
infinity nan +inf 0x 0b 1e+ 1.e5 .e5 0x1p3 0b1_0 0x_1f 1_e3 3s 2147483647 2147483648 -2147483648 -2147483649 1e2""".split()
DURATIONS = """3s +3s -3s 3 0 0s 3.s .3s .s 3.5s 3ms 3us 3\u00b5s 3\u03bcs 3ns 3m 3h 3d 1h30m 1h-30m 9999999h 2562047h47m16.854775807s
2562047h47m16.854775808s 2562047h 3S 3\u0665s 1e3s 3s3 3ss 0.0000000001s 0.9ns 1ns 00003s""".split()
ENDPOINTS = """unix:///run/p.sock unix:///x%ck unix:///x%2Fk unix://a/b unix:// unix:/// unix:////a unix://[::1]/a unix://[::1/a
unix://a:80/b unix://a:x/b unix://a:/b unix://u@h/p unix://u:p@h/p unix://u%@h/p unix://%41/p unix://%c3/p unix://%25/p
unix:///p?q%zz unix:///p#f%zz unix:///p#f%2F unix:///a{b unix://a{b/c unix://\u00e9/p unix:///\u00e9 unix://a@b@c/p unix://a^b/p
unix://a<b>/p unix://a|b/p unix:///@abs unix://[a]b/p unix://[fe80::1%25en0]/p unix://a%zz/p unix:///% unix:///%4 unix://?x unix://#x
unix://a:1?x unix://a*b/p unix://u/@h/p unix://a\\b/p unix://[]/p""".split() + ["unix://a b", "unix:///p q", "unix://a?b c", "unix://u \u00e9@h/p"]


def file_of(**given: str) -> str:
    """A file with these values in their places."""
    value = {"resource": "secrets", "name": "p", "endpoint": "unix:///run/p.sock", "timeout": "3s", "cachesize": "100", "key": "key1"} | given
    return (
        "apiVersion: apiserver.config.k8s.io/v1\nkind: EncryptionConfiguration\nresources:\n"
        f"- resources:\n  - {value['resource']}\n  providers:\n  - kms:\n      apiVersion: v2\n      name: {value['name']}\n"
        f"      endpoint: {value['endpoint']}\n      timeout: {value['timeout']}\n      cachesize: {value['cachesize']}\n"
        f"  - aescbc:\n      keys:\n      - name: {value['key']}\n        secret: AAECAwQFBgcICQoLDA0ODw==\n"
    )


def in_json(member: str, value: str) -> str:
    return (
        '{"apiVersion":"apiserver.config.k8s.io/v1","kind":"EncryptionConfiguration","resources":[{"resources":["secrets"],'
        f'"providers":[{{"kms":{{"apiVersion":"v2","name":"p","endpoint":"unix:///p","{member}":{value}}}}}]}}]}}'
    )


def odd() -> Iterator[str]:
    for word in PLAIN:
        yield from (file_of(**{name: word}) for name in ("name", "key", "resource", "endpoint", "timeout", "cachesize"))
        yield from (file_of(**{name: f"'{word}'"}) for name in ("name", "key", "cachesize"))
    yield file_of(endpoint="unix:///run/p.sock\t")
    yield file_of().replace("cachesize:", "cachesi:\tze:")
    for form in ("{}", '"{}"'):
        yield from (file_of(timeout=form.format(word)) for word in DURATIONS)
        yield from (file_of(endpoint=form.format(word.replace("\\", "\\\\") if '"' in form else word)) for word in ENDPOINTS)
    for value in ("1", "0", "1.0", '"3"', "null", "-1", "1e2", "2147483648", "true", "[1]", "{}"):
        yield from (in_json(member, value) for member in ("cachesize", "timeout"))


def files(draw: random.Random, count: int) -> Iterator[bytes]:
    """Odd ones, those that show a class each, and changed ones."""
    yield from (text.encode() for text in odd())
    yield from (content for _name, content in own_files.OWN)
    yield from (mutations.mutated(draw) for _ in range(count))


def check(bench: Bench, program: Path, count: int) -> None:
    file, seen, wrong = bench.room / "read", collections.Counter(), []
    with Peer(program) as peer:
        for content in files(bench.draw, count):
            file.write_bytes(content)
            read = document.read(str(file), "new")
            if read.breach:
                continue
            found = {it.lint for it in server_rules.findings(read) if it.lint.holds(MINOR) and it.lint.seen is Seen.TRIED}
            own = sorted(lint.code for lint in found if lint.severity is Severity.ERROR and lint.code not in ("kms-as-v1", "wildcards"))
            there = peer.load("vet", file)
            if bool(own) != bool(there):
                wrong.append((own, there and re.sub(r".*: ", "", there.why), content.decode(errors="replace")[-300:]))
            seen.update(own or ["taken"])
    bench.expect(f"Kubernetes' own code refuses what vet says: {dict(sorted(seen.items()))}", [], wrong[:3])
