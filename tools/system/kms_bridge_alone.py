"""The bridge by itself: its rules, its lines, its probe, and the programs that it writes."""
import base64
import json
import os
import subprocess
import sys
from pathlib import Path

from support import BRIDGE, PATIENCE, TOP, Checks, KmsServer, call, running

sys.path.insert(0, str(TOP / "bridges"))
from kms_bridge.annotations import is_domain_name  # noqa: E402
from kms_bridge.durations import seconds_of  # noqa: E402
from kms_bridge.endpoints import target_of  # noqa: E402

DOMAIN_NAMES = ["a.b", "kms.example.com", "a-1.b2", "x.y.", "a" * 63 + ".b"]
NO_DOMAIN_NAMES = ["", ".", "a", "a.", "A.b", "a_b.c", "-a.b", "a-.b", "a..b", ".a.b", "a" * 64 + ".b", "é.b",
                   ".".join(["a" * 60] * 5), "a.b\n", "a .b", "a/b.c"]
DURATIONS = {"3s": 3.0, "500ms": 0.5, "1m30s": 90.0, "1.5s": 1.5, "2h": 7200.0, "10us": 1e-5}
NO_DURATIONS = ["", "3", "0s", "-1s", "s", "3 s", "3S", "1d"]
TARGETS = {"unix:///run/p.sock": "unix:/run/p.sock", "unix:///@name": "unix-abstract:name",
           "unix:///a%20b": "unix:/a%20b"}
NO_TARGETS = ["", "/run/p.sock", "unix:/run/p.sock?x", "unix://run/p.sock", "unix://", "unix:///", "http:///p",
              "unix:///p?q", "unix:///p#q", "unix:///a b", "unix:///" + "p" * 107]
SECRET = "c2VjcmV0IG9mIHRoZSBjb25maWd1cmF0aW9uISEhIQ=="


def _taken(rule, texts: list[str]) -> list[str]:
    """Those of the texts that a rule takes which must take none."""
    found = []
    for text in texts:
        try:
            rule(text)
            found.append(text)
        except ValueError:
            pass
    return found


def _check_rules(checks: Checks) -> None:
    checks.expect("domain names are taken", [], [name for name in DOMAIN_NAMES if not is_domain_name(name)])
    checks.expect("other keys are not", [], [name for name in NO_DOMAIN_NAMES if is_domain_name(name)])
    found = {text: round(seconds_of(text), 9) for text in DURATIONS}
    checks.expect("durations are read", DURATIONS, found)
    checks.expect("other texts are no durations", [], _taken(seconds_of, NO_DURATIONS))
    checks.expect("endpoints are read", TARGETS, {text: target_of(text) for text in TARGETS})
    checks.expect("other texts are no endpoints", [], _taken(target_of, NO_TARGETS))


def _check_words(checks: Checks) -> None:
    wrong = [[], ["--endpoint", "tcp://x"], ["--endpoint", "unix:///p", "--timeout", "0s"],
             ["--endpoint", "unix:///p", "--retries", "-1"], ["--into", "d"], ["--into", "d", "--config", "c", "--probe"],
             ["--endpoint", "unix:///p", "--config", "c"], ["--endpoint", "unix:///p", "--into", "d"]]
    checks.expect("words that mean nothing have status 2", [2] * len(wrong),
                  [call([BRIDGE, *words]).status for words in wrong])


def _answers(endpoint: str, requests: list[object], *words: str) -> list[dict]:
    text = "".join(f"{each if isinstance(each, str) else json.dumps(each)}\n" for each in requests)
    done = call([BRIDGE, "--endpoint", endpoint, *words], text.encode())
    return [json.loads(line) for line in done.output.splitlines()]


def _check_lines(checks: Checks, server: KmsServer, endpoint: str) -> None:
    wrong = ["hello", "", "[]", "{}", '{"call":"no"}', '{"call":"encrypt","plaintext":"AA","uid":"1"}',
             '{"call":"encrypt","plaintext":"AAAA","uid":1}', '{"call":"decrypt","ciphertext":"AAAA","uid":"1"}',
             '{"annotations":{},"call":"decrypt","ciphertext":"AAAA","key_id":"\\ud800","uid":"1"}', "[" * 100_000]
    found = _answers(endpoint, wrong)
    checks.expect("a line that is no request is refused, and the next is read", [["error"]] * len(wrong),
                  [list(answer) for answer in found])
    server.says(annotations={f"{number:04}.{'x' * 50}.example": "00" for number in range(400)})
    seed = base64.b64encode(b"s" * 32).decode()
    wrapped = _answers(endpoint, [{"call": "encrypt", "plaintext": seed, "uid": "7"}])[0]
    request = {"annotations": wrapped["annotations"], "call": "decrypt", "ciphertext": wrapped["ciphertext"],
               "key_id": wrapped["key_id"], "uid": "8", "pad": "x" * 200_000}
    checks.expect("a line of 200,000 bytes, and annotations, go through", [{"plaintext": seed}],
                  _answers(endpoint, [request]))
    server.says(annotations={f"{number:05}.example": "00" * 2000 for number in range(50)})
    found = _answers(endpoint, [{"call": "encrypt", "plaintext": "AAAA", "uid": "1"}, {"call": "status"}])
    checks.expect("an answer above kmsrest's limit is a refusal", [["error"], ["healthz", "key_id", "version"]],
                  [list(answer) for answer in found])


def _check_probe(checks: Checks, server: KmsServer, endpoint: str) -> None:
    def probe(*words: str) -> tuple[int, list[str]]:
        done = call([BRIDGE, "--endpoint", endpoint, "--probe", *words])
        return done.status, [": ".join(line.split(": ")[:2]) for line in done.output.decode().splitlines()]

    server.says()
    checks.expect("a plugin that is well is probed", (0, ["status: ok", "encrypt: ok", "decrypt: ok"]), probe())
    server.says(version="v2beta1")
    checks.expect("v2beta1 isn't well", (1, ["status: the version isn't v2", "encrypt: ok", "decrypt: ok"]), probe())
    checks.expect("unless it is accepted", 0, probe("--accept-v2beta1")[0])
    server.says(annotations={"nodots": "00"})
    wanted = "encrypt: the annotation key 'nodots' is no domain name"
    checks.expect("a key that is no domain name isn't", (1, ["status: ok", wanted, "decrypt: ok"]), probe())
    server.says(troubles=[{"call": "Decrypt", "do": "flip"}])
    wanted = "decrypt: these aren't the bytes that were wrapped"
    checks.expect("nor are other bytes", (1, ["status: ok", "encrypt: ok", wanted]), probe())
    server.says(troubles=[{"call": "Encrypt", "do": "hang"}])
    status, lines = probe("--timeout", "3s", "--retries", "0")
    checks.expect("nor is a call without an answer", (1, ["status: ok", "encrypt: DEADLINE_EXCEEDED"]), (status, lines))


CONFIG = f"""apiVersion: apiserver.config.k8s.io/v1
kind: EncryptionConfiguration
resources:
  - resources: [secrets]
    providers:
      - kms: {{apiVersion: v2, name: p, endpoint: 'unix:///run/p.sock', timeout: 5s}}
      - kms: {{apiVersion: v2, name: a/b, endpoint: 'unix:///@q'}}
      - aescbc: {{keys: [{{name: k, secret: {SECRET}}}]}}
"""


def _into(folder: Path, config: str, *words: str):
    (folder / "config").write_text(config, encoding="utf-8")
    return call([BRIDGE, "--into", folder / "programs", "--config", folder / "config", *words])


def _check_programs(checks: Checks, folder: Path) -> None:
    programs = folder / "programs"
    words = f"--plugin=p={programs}/p\n--plugin=a/b={programs}/a%2Fb\n"
    done = _into(folder, CONFIG, "--retries", "1", "--accept-v2beta1")
    found = (done.status, done.output.decode())
    checks.expect("programs are written, and the words for kmsrest printed", (0, words), found)
    last = (programs / "p").read_text(encoding="utf-8").splitlines()[-1]
    wanted = f"exec {BRIDGE} --endpoint unix:///run/p.sock --timeout 5s --retries 1 --accept-v2beta1"
    checks.expect("a program has the endpoint, the timeout and the words", wanted, last)
    checks.expect("it is its owner's alone", 0o700, (programs / "p").stat().st_mode & 0o777)
    again = _into(folder, CONFIG, "--retries", "1", "--accept-v2beta1")
    checks.expect("the same again is the same", (0, words), (again.status, again.output.decode()))
    checks.expect("another program there is kept", (1, ""), _refusal(_into(folder, CONFIG)))
    twice = CONFIG.replace("name: a/b", "name: p")
    checks.expect("a name twice, with other words, is refused", (1, ""), _refusal(_into(folder, twice)))
    for what, old, new in [("v1", "apiVersion: v2", "apiVersion: v1"), ("a bad timeout", "5s", "5"),
                           ("a bad endpoint", "unix:///@q", "tcp:///q"), ("a = in a name", "a/b", "a=b")]:
        checks.expect(f"{what} is refused", (1, ""), _refusal(_into(folder, CONFIG.replace(old, new))))
    for what, config in [("YAML", CONFIG.replace("}]}", "]")), ("JSON", '{"secret":"%s",,}' % SECRET)]:
        broken = _into(folder, config)
        found = (broken.status, SECRET in broken.errors)
        checks.expect(f"broken {what} is refused, and its line isn't shown", (1, False), found)


NOBODY = 65534


def _into_folder(folder: Path, into: Path):
    (folder / "config").write_text(CONFIG, encoding="utf-8")
    return call([BRIDGE, "--into", into, "--config", folder / "config"])


def _check_others(checks: Checks, folder: Path) -> None:
    """Folders and programs that others may write, or own, are refused; one's own folder in a sticky one is none."""
    room = folder / "others"
    room.mkdir(mode=0o755)
    for name, mode in [("open", 0o777), ("group", 0o770), ("sticky", 0o1777), ("mine", 0o700)]:
        (room / name).mkdir()
        (room / name).chmod(mode)
    (room / "sticky" / "mine").mkdir(mode=0o700)
    (room / "mine" / "link").symlink_to("../open")
    (room / "open" / "below").mkdir(mode=0o700)
    refused = ["open", "group", "open/below", "open/new", "mine/link", "mine/link/below", "mine/../open"]
    if os.geteuid() == 0:
        for name in ("theirs", "sticky/theirs"):
            (room / name).mkdir(mode=0o700)
            os.chown(room / name, NOBODY, NOBODY)
        refused += ["theirs", "sticky/theirs", "sticky/theirs/below"]
    found = {name: _into_folder(folder, room / name) for name in refused}
    checks.expect("folders that others write or own are refused", {name: (1, "") for name in refused},
                  {name: _refusal(done) for name, done in found.items()})
    checks.expect("and each is told", [], [name for name, done in found.items() if "could run another program as you" not in done.errors])
    checks.expect("and nothing is written there", [], [path for path in room.rglob("p") if path.is_file()])
    taken = ["mine", "mine/deeper/new", "sticky/mine", "sticky/new"]
    checks.expect("one's own folders are taken", {name: 0 for name in taken},
                  {name: _into_folder(folder, room / name).status for name in taken})
    program = room / "mine" / "p"
    checks.expect("a program that stands there is kept", 0, _into_folder(folder, room / "mine").status)
    program.chmod(0o722)
    checks.expect("but not one that others may write", (1, ""), _refusal(_into_folder(folder, room / "mine")))
    program.chmod(0o700)
    if os.geteuid() == 0:
        os.chown(program, NOBODY, NOBODY)
        checks.expect("nor one that another owns, with the same bytes", (1, ""), _refusal(_into_folder(folder, room / "mine")))
        os.chown(program, 0, 0)
    other = room / "mine" / "other"
    other.write_bytes(program.read_bytes())
    program.unlink()
    program.symlink_to(other)
    checks.expect("nor one behind a link", (1, ""), _refusal(_into_folder(folder, room / "mine")))


def _refusal(done) -> tuple[int, str]:
    return done.status, done.output.decode()


def _check_reader(checks: Checks, server: KmsServer, endpoint: str) -> None:
    """A bridge that waits for its plugin ends once nobody reads its answers; one whose answers are read answers all."""
    server.says(troubles=[{"call": "Encrypt", "do": "hang"}])
    words = [str(BRIDGE), "--endpoint", endpoint, "--timeout", f"{2 * PATIENCE}s"]
    child = subprocess.Popen(words, stdin=subprocess.PIPE, stdout=subprocess.PIPE)
    child.stdin.write(b'{"call":"status"}\n{"call":"encrypt","plaintext":"AAAA","uid":"1"}\n')
    child.stdin.flush()
    checks.expect("a bridge answers", True, child.stdout.readline().startswith(b'{"healthz"'))
    child.stdout.close()
    checks.expect("and ends with its reader, while its plugin says nothing", 4, child.wait(PATIENCE))
    server.says()
    found = _answers(endpoint, [{"call": "status"}] * 3)
    checks.expect("one whose input has ended answers all the same", 3, len(found))
    with open("/dev/full", "wb") as full:
        for what, more in (("a probe", ["--probe"]), ("answers", [])):
            done = subprocess.run([*words[:3], *more], input=b'{"call":"status"}\n', stdout=full, stderr=subprocess.PIPE, check=False)
            line = done.stderr.decode()
            checks.expect(f"a full output: {what}", (4, True), (done.returncode, line == "kms-bridge: standard output: No space left on device\n"))
    done = subprocess.run([*words[:3], "--probe"], stdout=None, stderr=subprocess.PIPE, preexec_fn=lambda: os.close(1), check=False)
    checks.expect("a closed output", (4, True), (done.returncode, b"standard output is closed" in done.stderr))


def check(checks: Checks, folder: Path) -> None:
    """All of it."""
    _check_rules(checks)
    _check_words(checks)
    _check_programs(checks, folder)
    _check_others(checks, folder)
    with running(KmsServer(folder, "alone", f"unix:{folder}/alone.sock")) as server:
        endpoint = f"unix://{folder}/alone.sock"
        _check_lines(checks, server, endpoint)
        _check_probe(checks, server, endpoint)
        _check_reader(checks, server, endpoint)
