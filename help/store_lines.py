"""What is told of a store that breaks its format: the codes 41, 42, 43 and 46."""

import json
from pathlib import Path

import looks
import plain_files

ANEW = "rm {0} {0}.map, and begin with etcd-to-store again"


def imported_rows(name):
    """How many rows were imported into a store out of etcd, by the map beside it; None where there is none, or it is torn."""
    try:
        return int(json.loads(plain_files.content(name + ".map").splitlines()[0])["rows"])
    except (OSError, ValueError, KeyError, IndexError, TypeError, RecursionError):
        return None


def plural(count, what):
    return f"1 {what} stands" if count == 1 else f"{count} {what}s stand"


def now_otherwise(told, name, code, place):
    """Whether the line isn't so any more, which is told."""
    state = looks.breach_of(name)
    if state is None or state == (code, place):
        return False
    if state == ():
        rows = len(looks.rows_of(name))
        told.add("found", f"it is whole now, with {rows} rows: the line is of an earlier state of it")
        told.add("do", "nothing, where it was made anew; else `list` shows what it has")
    else:
        told.add("found", f"now it breaks at another place: text {state[0]} {state[1]}")
        told.add("do", f"ask explain of that: kmsrest explain 'kmsrest: text {state[0]} {state[1]}' .. --store {name}")
    return True


def out_of_etcd(told, name, rows):
    """A store with its map beside it."""
    imported = imported_rows(name)
    if imported is None or rows is None:
        told.add("found", f"{name}.map is beside it, so it came out of etcd")
    elif rows >= imported:
        told.add("found", f"{name}.map has {imported} rows, so all that was imported is whole: the cut row is a rewrite's")
    else:
        told.add("found", f"{name}.map has {imported} rows, so objects are lost with its end; verify and judge would pass without them")
    told.add("do", ANEW.format(name) + ": etcd has it all, and may have changed since")


def store_line(told, code, place, call):
    names = call.options.get("store", []) + call.options.get("to", [])
    for name in names[:1]:
        told.add("file", f"{name} (--store), byte {place}")
        if now_otherwise(told, name, code, place):
            return
        if code == 41:
            told.add("found", looks.kind_of_file(name))
            return
        rows = looks.rows_before(name, place)
        told.add("found", f"{plural(rows, 'whole row')} before it" if rows is not None else "what stands before it can't be read either")
        recover = f"kmsrest recover {name} {name}.new"
        if Path(name + ".map").exists():
            out_of_etcd(told, name, rows)
        elif code == 42:
            told.add("do", "where it came out of etcd: remove it, and begin with etcd-to-store again")
            told.add("do", f"else {recover}: the rows before it, and what the cut one was; that was never answered")
        else:
            told.add("do", f"restore it from a copy; else {recover}: the rows before it, and path by path what comes after it")
