"""What is said of a plugin's program before it is started: another user may put another one in its place."""

import shutil

from reference.trust import others_who


def place_of(program):
    """Where the program is looked for: from the current folder where it has a slash, else in the folders of PATH."""
    return program if "/" in program else shutil.which(program)


def before(call):
    lines = []
    for name, program in dict.fromkeys(call.plugins()):
        place = place_of(program)
        try:
            why = others_who(place) if place else None
        except OSError:
            why = None
        if why:
            lines.append(f"remark: --plugin {name}: {why}, so that {program} may be another program by the time it runs")
    return lines
