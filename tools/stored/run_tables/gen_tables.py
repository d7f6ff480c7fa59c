"""The generated load. What its workers write comes in any order, so a store that they write to isn't printed."""

from reference.load import first_configuration, path
from reference.store import Row, written
from reference.values import check_of, seal

from .store_tables import put, sealed

SEED = 1


def words(seed=SEED, size=2):
    return ["gen", "--seed", str(seed), "--size", str(size), "--store", "s"]


def load(book, name, seed=SEED, size=2, content=None, **more):
    """A load; the store is absent where there is no content."""
    tapes = () if content is None else (("s", content),)
    book.case(f"gen_{name}", words(seed, size), tapes=tapes, **more)


def row_of(writer, own, data):
    """A row that the writer sealed."""
    return Row(own, b"secrets", seal(writer, own, data, lambda size: bytes(range(size)), None), check_of(writer))


def add_all(book):
    book.title("the generated load")
    load(book, "two_each")
    load(book, "other_seed", seed=2)
    load(book, "greatest_seed", seed=2**64 - 1, size=1)
    load(book, "thirteen_each", size=13)
    load(book, "hundred_each", size=100, step=4096)
    # a random source of the world stays as it was
    load(book, "world_with_dice", dice=((0, bytes(range(64))), (1, b"")))
    load(book, "no_file", fails=(("files", 1),))
    load(book, "output_fails", fails=(("output", 1),))
    load(book, "output_fails_later", fails=(("output", 40),))
    load(book, "output_without_room", room=30)
    load(book, "size_10000_over_broken_store", size=10000, content=b"KRSTORE3")
    load(book, "torn_store", content=b"KRSTORE2\1")
    load(book, "length_fails", content=b"", fails=(("reads:s", 1),))
    load(book, "read_fails", content=b"KRSTORE2", fails=(("reads:s", 2),))
    load(book, "stored_by_another", content=written(2, [sealed("/s", "aescbc:key1=S1")]))
    ours = first_configuration(SEED)[0][1][0]
    other = ("aesgcm", "g1", bytes(32))
    load(book, "stored_by_another_g1", content=written(2, [row_of(other, b"/s", b"hi")]))
    load(book, "stored_by_g1_of_another_seed", seed=2, content=written(2, [row_of(ours, path(0, 0), b"hi")]))
