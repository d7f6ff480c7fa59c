"""Options that several of the programs have, and their rules."""

import argparse

from reference.words import is_name, is_resource

from .etcd import PAGE
from .places import Places

PREFIX = "/registry"


def resource(text: str) -> str:
    if not is_resource(text.encode()):
        raise argparse.ArgumentTypeError(f"{text!r} is no resource: NAME, or NAME.GROUP, in small letters")
    return text


def named_place(text: str) -> tuple[str, str]:
    place, equals, name = text.partition("=")
    if not equals or not place.strip("/") or place.count("/") > 1:
        raise argparse.ArgumentTypeError(f"{text!r} isn't PLACE=RESOURCE, with a place of one part or two")
    return place, resource(name)


def plugin(text: str) -> tuple[str, str]:
    name, equals, program = text.partition("=")
    if not equals or not is_name(name.encode()) or not program:
        raise argparse.ArgumentTypeError(f"{text!r} isn't NAME=PROGRAM")
    return name, program


def count(text: str) -> int:
    if not text.isascii() or not text.isdigit() or int(text) < 1:
        raise argparse.ArgumentTypeError(f"{text!r} is no count from 1 on")
    return int(text)


def seconds(text: str) -> float:
    number = float(text)
    if not 0 <= number < 1e6:
        raise argparse.ArgumentTypeError(f"{text!r} is no number of seconds")
    return number


def add_reading(parser: argparse.ArgumentParser) -> None:
    """What is read of an etcd, and which resource a key is of."""
    parser.add_argument("--prefix", default=PREFIX, help=f"the API server's --etcd-prefix ({PREFIX})")
    parser.add_argument(
        "--resource",
        action="append",
        default=[],
        type=named_place,
        metavar="PLACE=RESOURCE",
        help="the resource stored below PREFIX/PLACE, if the table doesn't know it; may be repeated",
    )
    parser.add_argument(
        "--only",
        action="append",
        default=[],
        type=resource,
        metavar="RESOURCE",
        help="read only this resource; may be repeated",
    )
    parser.add_argument(
        "--page",
        type=count,
        default=PAGE,
        metavar="N",
        help=f"how many keys to ask for at once ({PAGE}); fewer if values are large",
    )


def add_sources(parser: argparse.ArgumentParser) -> None:
    """Where from, if not from an etcd that runs."""
    kind = parser.add_mutually_exclusive_group()
    kind.add_argument("--snapshot", metavar="F", help="read a snapshot of etcd instead of a running etcd")
    kind.add_argument("--json", metavar="F", help="read what `etcdctl get --prefix PREFIX -w json` wrote")


def places_of(parser: argparse.ArgumentParser, words: argparse.Namespace) -> Places:
    """The places that the words name; a resource that none of them holds makes them no words."""
    places = Places.below(words.prefix, dict(words.resource))
    for name in words.only:
        if not places.places_for(name):
            parser.error(f"--only {name}: no place is known for it; --resource PLACE={name} names one")
    return places
