"""The load that `gen` makes of a seed and a size: ChaCha8 with 64 bits of counter, its pieces, and the summary where nothing fails."""

import hashlib
import struct

from . import fleet

WORKERS = 4
PIECE = 32
NONCE = 12


def rotated(word, by):
    return (word << by | word >> (32 - by)) & 0xFFFFFFFF


def quarter_round(state, a, b, c, d):
    for summed, other, turned, by in ((a, b, d, 16), (c, d, b, 12), (a, b, d, 8), (c, d, b, 7)):
        state[summed] = (state[summed] + state[other]) & 0xFFFFFFFF
        state[turned] = rotated(state[turned] ^ state[summed], by)


COLUMNS = [(i, 4 + i, 8 + i, 12 + i) for i in range(4)]
DIAGONALS = [(i, 4 + (i + 1) % 4, 8 + (i + 2) % 4, 12 + (i + 3) % 4) for i in range(4)]


def block(key, number, rounds=8):
    """A block of the key stream by its number, with a nonce of zeros."""
    first = [*struct.unpack("<4I", b"expand 32-byte k"), *struct.unpack("<8I", key), *struct.unpack("<2I", struct.pack("<Q", number)), 0, 0]
    state = list(first)
    for _ in range(rounds // 2):
        for places in COLUMNS + DIAGONALS:
            quarter_round(state, *places)
    return struct.pack("<16I", *((one + other) & 0xFFFFFFFF for one, other in zip(state, first)))


def stream(seed, number):
    """The bytes of a stream, block by block."""
    key = struct.pack(">QQ", seed, number) + bytes(16)
    at = 0
    while True:
        yield from block(key, at)
        at += 1


def pieces(seed):
    """What stream 0 gives, 32 bytes each: the secrets g1 and g2, then the data."""
    left = stream(seed, 0)
    while True:
        yield bytes(next(left) for _ in range(PIECE))


def path(worker, number):
    return f"/registry/secrets/gen/w{worker}-{number}".encode()


def objects(seed, size):
    """The data of each path, worker by worker and put by put."""
    left = pieces(seed)
    next(left), next(left)
    return {path(worker, number): next(left) for worker in range(WORKERS) for number in range(size)}


def nonces(seed, size):
    """The nonce of each path's value, where each put seals once: 12 bytes each of the worker's own stream."""
    own = [stream(seed, 1 + worker) for worker in range(WORKERS)]
    return {path(worker, number): bytes(next(own[worker]) for _ in range(NONCE)) for worker in range(WORKERS) for number in range(size)}


def summary(seed, size, missing=()):
    """The summary where all puts but those at the missing paths are done."""
    got = {own: data for own, data in objects(seed, size).items() if own not in missing}
    listed = b"".join(own + b"\n" + got[own] + b"\n" for own in sorted(got))
    return f"gen {seed} {size}\nputs {len(got)}\ngets {len(got)}\ndigest {hashlib.sha256(listed).hexdigest()}\n"


# ---- the whole


def first_configuration(seed):
    """The entries that both replicas open with."""
    return [(["secrets"], [("aesgcm", "g1", next(pieces(seed))), ("identity", "")])]


def run(options, world, output):
    """The call, where every put and get is done: in which order is told nowhere but in the store."""
    seed, size = int(options["seed"]), int(options["size"])
    tape = world.tape(options["store"], make=True)
    form, rows = tape.load()
    entries = first_configuration(seed)
    fleet.Core(tape, form, rows, ["a", "b"], [(entries, {}), (entries, {})])
    if tape.writes.fails:
        raise NotImplementedError("which put fails depends on the workers' order")
    tape.settle()
    output.write_all(summary(seed, size).encode())
    return b"", 0
