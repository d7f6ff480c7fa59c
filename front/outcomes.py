"""What is said of a call whose reason stands on standard output, which goes past the front end: the verdict of `judge` is found
again from its files, of other calls it is told which of their lines says why."""

import looks
from call_words import entries_of
from reference.calls import Stop, board_of

# What a call that ended with 1 means where its output says why, and what to do.
BY_OUTPUT = {
    "verify": (
        "this configuration can't read some objects: the lines with `refused` name them",
        "kmsrest explain 'LINE', with such a line and the call's words, names its causes; give the configuration the key that wrote them",
    ),
    "rewrite": (
        "some objects are stored as before, by their old key: `left` counts them",
        "kmsrest verify with the same words names each that is refused, and why; one that it calls stale has data that can't be sealed",
    ),
    "fleet": ("a worker's line didn't do what it says: its reply says why", "kmsrest explain 'LINE', with that reply and the call's words, says more"),
    "watch": ("a worker's line failed, or the revision isn't there: the output says which", "kmsrest explain 'LINE', with that line and the call's words, says more"),
    "gen": ("a worker's line failed: the summary counts them", "kmsrest explain 'LINE', with a line of the output, says more"),
}


def verdict_line(call):
    """The verdict that `judge` printed, found again; nothing where a file has changed or can't be read now."""
    replicas = [entries_of(name) for name in call.options.get("replica", ())]
    number, _, name = (call.one("reload") or "").partition("=")
    new, rows = entries_of(name) if name else None, looks.rows_of(call.one("store"))
    if new is None or rows is None or None in replicas or not number.isdigit():
        return None
    try:
        verdict = board_of(rows, replicas).verdict(int(number), new)
    except Stop:
        return None
    return None if verdict == "pass" else verdict


def lines(call, status):
    """The line of the call's output that is explained, where it is known."""
    found = verdict_line(call) if call.command == "judge" and status == 1 else None
    return [found] if found else []


def told(call, status):
    """What is told of a call whose output says why it failed."""
    if status != 1 or call.command not in BY_OUTPUT:
        return []
    means, do = BY_OUTPUT[call.command]
    return [f"means:  {means}", f"do:     {do}"]
