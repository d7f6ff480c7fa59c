"""The watch of a fleet: what lives behind its lines, in pages, or the changes since a revision."""

import base64

from . import fleet

KEPT = 1000


def shown(first, changes):
    """The items behind the changes: revision, resource and data of each path."""
    items = dict(first)
    for kind, path, revision, value in changes:
        if kind == "delete":
            del items[path]
        else:
            items[path] = (revision, *(value or items[path][1:]))
    return items


def data_text(data):
    return "?" if data is None else base64.b64encode(data).decode() or "-"


def pages(items, resource, limit):
    lines = [f"{revision} {path} {data_text(data)}" for path, (revision, own, data) in sorted(items.items()) if own == resource]
    for at in range(0, len(lines) or 1, limit):
        page = lines[at : at + limit]
        yield f"page {len(page)}"
        yield from page
    yield "end"


def since(changes, begun, revision):
    """The changes above the revision, or nothing and why they aren't told."""
    kept, gone = changes[-KEPT:], changes[:-KEPT]
    oldest = gone[-1][2] if gone else begun
    newest = changes[-1][2] if changes else begun
    if revision < oldest:
        return [f"gone {oldest}"], True
    if revision > newest:
        return [f"ahead {newest}"], True
    return [f"change {number} {kind} {path}" for kind, path, number, _ in kept if number > revision] + ["end"], False


def run(options, world, output):
    core, told, first, begun = fleet.work(options, world, watched=True)
    status = fleet.status_of(fleet.all_replies(told))
    if "since" in options:
        text, refused = since(core.changes, begun, int(options["since"]))
    else:
        text, refused = pages(shown(first, core.changes), options["resource"], int(options["limit"])), False
    output.write_all(("\n".join(text) + "\n").encode())
    return b"", 1 if refused and status == 0 else status
