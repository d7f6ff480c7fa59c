"""Writes the stored run of kmsplug, crates/kmsplug/stdin and stdout, whose status is 0; with the word `check` it compares them instead.

What is wrapped comes from Python's `cryptography`, and the lines from Python's `json`: the program itself is
never asked. With `check` the built program is run too, for what a stored run can't show: that an answer is out before
the next request is sent, that a last line without LF is answered, and the statuses 4, 5 and 6.
"""

import base64
import json
import os
import resource
import select
import subprocess
import sys
from pathlib import Path

from cryptography.hazmat.primitives.keywrap import aes_key_wrap

KEK = bytes(range(32))
KEY_ID = "example-1"
PLAIN = bytes.fromhex("00112233445566778899aabbccddeeff000102030405060708090a0b0c0d0e0f")
STATUS = {"healthz": "ok", "key_id": KEY_ID, "version": "v2"}
LINE_LIMIT = 131_072
CRATES = Path(__file__).resolve().parent.parent.parent / "crates"
CRATE = CRATES / "kmsplug"
SECONDS = 600

requests, replies = [], []


def compact(value):
    return json.dumps(value, sort_keys=True, separators=(",", ":"), ensure_ascii=False)


def text(data):
    return base64.standard_b64encode(data).decode()


def ask(request, reply):
    requests.append(request if isinstance(request, str) else compact(request))
    replies.append(compact(reply))


def encrypt(plain, uid):
    return {"call": "encrypt", "plaintext": text(plain), "uid": str(uid)}


def decrypt(source, uid, key_id=KEY_ID, annotations=None):
    return {
        "annotations": annotations or {},
        "call": "decrypt",
        "ciphertext": text(source),
        "key_id": key_id,
        "uid": str(uid),
    }


def padded(size):
    """A request of so many bytes: blanks don't count."""
    return compact({"call": "status"}).ljust(size)


def error(word):
    return {"error": word}


def wrapped(source):
    return {"annotations": {}, "ciphertext": text(source), "key_id": KEY_ID}


def make():
    source = aes_key_wrap(KEK, PLAIN)
    assert source.hex() == "28c9f404c4b810f4cbccb35cfb87f8263f5786e2d80ed326cbc7f0e71a99f43bfb988b9b7a02dd21"
    ask({"call": "status"}, STATUS)
    ask("[]", error("request"))
    ask("{", error("request"))
    ask("", error("request"))
    ask('{"call":"other"}', error("request"))
    ask(encrypt(PLAIN, 1), wrapped(source))
    ask(decrypt(source, 2), {"plaintext": text(PLAIN)})
    # the annotations don't count
    ask(decrypt(source, 3, annotations={"example.com/a": "aGk="}), {"plaintext": text(PLAIN)})
    # another key id comes before the length, and the length before the check value
    ask(decrypt(b"hi", 4, key_id="other"), error("key id"))
    ask(encrypt(b"hi", 5), error("length"))
    ask(decrypt(b"hi", 6), error("length"))
    ask(decrypt(bytes(16), 7), error("length"))
    ask(decrypt(source[:-1] + b"\0", 8), error("check"))
    # the greatest and the least number of bytes, and one block more or fewer
    for uid, size in enumerate((16, 1016), 9):
        ask(encrypt(bytes(size), uid), wrapped(aes_key_wrap(KEK, bytes(size))))
    for uid, size in enumerate((0, 8, 1024), 11):
        ask(encrypt(bytes(size), uid), error("length"))
    # other members don't count
    ask('{"call":"status","more":[1,2]}', STATUS)
    # the longest line is answered
    ask(padded(LINE_LIMIT), STATUS)
    return {
        "stdin": "".join(request + "\n" for request in requests),
        "stdout": "".join(reply + "\n" for reply in replies),
    }


# ---- the built program


def program():
    """The program; rt proves and builds it where it isn't built or older than what it is made of."""
    built = CRATE / "out" / "kmsplug"
    sources = [it for name in ("kmsplug", "kr_edge", "kr_keywrap", "kr_kms_wire", "kr_kms", "kr_aes", "kr_base") for it in (CRATES / name / "src").rglob("*.rt")]
    if not built.exists() or any(it.stat().st_mtime > built.stat().st_mtime for it in sources):
        subprocess.run(["rt", "run"], cwd=CRATE, stdin=subprocess.DEVNULL, stdout=subprocess.DEVNULL, check=True)
    return built


def expect(what, wanted, found):
    if wanted != found:
        sys.exit(f"not so: {what}: {found!r}, and not {wanted!r}")


def talk():
    """Requests over pipes, each sent once the one before it is answered; the last one has no LF."""
    source = aes_key_wrap(KEK, PLAIN)
    turns = [({"call": "status"}, STATUS), (encrypt(PLAIN, 1), wrapped(source)), (decrypt(source, 2), {"plaintext": text(PLAIN)})]
    with subprocess.Popen([program()], stdin=subprocess.PIPE, stdout=subprocess.PIPE) as plugin:
        for request, reply in turns:
            plugin.stdin.write(compact(request).encode() + b"\n")
            plugin.stdin.flush()
            if not select.select([plugin.stdout], [], [], SECONDS)[0]:
                plugin.kill()
                sys.exit(f"not so: no answer to {compact(request)} in {SECONDS} seconds, while the input goes on")
            expect("an answer", compact(reply) + "\n", plugin.stdout.readline().decode())
        rest, _ = plugin.communicate(b"[]", timeout=SECONDS)
    expect("the answer to a last line without LF", compact(error("request")) + "\n", rest.decode())
    expect("the status at the end of input", 0, plugin.returncode)


def overrun():
    """A line that is a byte too long ends the program, and neither it nor what stands behind it is answered."""
    lines = "".join(line + "\n" for line in ("[]", padded(LINE_LIMIT + 1), "[]"))
    ran = subprocess.run([program()], input=lines.encode(), capture_output=True, timeout=SECONDS, check=False)
    expect("the status after a line that is too long", (6, compact(error("request")) + "\n"), (ran.returncode, ran.stdout.decode()))


def fail():
    """A source that can't be read, and a sink that can't be written to."""
    folder = os.open("/", os.O_RDONLY)
    ran = subprocess.run([program()], stdin=folder, stdout=subprocess.PIPE, timeout=SECONDS, check=False)
    os.close(folder)
    expect("the status after a read that fails", (4, b""), (ran.returncode, ran.stdout))
    with open("/dev/full", "wb") as full:
        ran = subprocess.run([program()], input=b"[]\n", stdout=full, timeout=SECONDS, check=False)
    expect("the status after a write that fails", 4, ran.returncode)


def starve():
    """Just below the least address space in which it answers, found to 16 KB, it has none for a line."""

    def run_in(pages):
        limit = pages * 16_384
        return subprocess.run(
            [program()], input=b"[]\n", capture_output=True, timeout=SECONDS, check=False,
            preexec_fn=lambda: resource.setrlimit(resource.RLIMIT_AS, (limit, limit)),
        )

    little, enough = 0, 65_536
    while enough - little > 1:
        pages = (little + enough) // 2
        if run_in(pages).returncode == 0:
            enough = pages
        else:
            little = pages
    ran = run_in(little)
    expect("the status for want of memory", (5, b""), (ran.returncode, ran.stdout))


def main():
    made = make()
    for name, stored in made.items():
        if sys.argv[1:] != ["check"]:
            (CRATE / name).write_text(stored)
        elif (CRATE / name).read_text() != stored:
            sys.exit(f"not so: {CRATE / name} isn't what is made here")
    if sys.argv[1:] == ["check"]:
        talk()
        overrun()
        fail()
        starve()
    print(f"{len(requests)} lines", file=sys.stderr)


if __name__ == "__main__":
    main()
