"""A board of configurations and needs, and the verdict on a new configuration."""

from . import configuration


def who_text(who):
    return who[0] if who[0] == "identity" else f"{who[0]}:{who[1]}"


def class_text(found):
    kind, name = found
    return (name, f"*.{name}", "*.*")[kind]


def class_of(pattern):
    """A class: 0 and its resource, 1 and its group, or 2 for the rest. They are in order as they are."""
    if pattern == "*.*":
        return 2, ""
    return (1, pattern[2:]) if pattern.startswith("*.") else (0, pattern)


def list_of_class(entries, found):
    """The providers of a resource, or of the first entry with a pattern that covers all of the class."""
    kind, name = found
    if kind == 0:
        return configuration.list_for(entries, name)
    wanted = ("*.*",) if kind == 2 else ("*.*", f"*.{name}")
    for patterns, providers in entries:
        if any(pattern in wanted for pattern in patterns):
            return providers
    return [("identity", "")]


class Generation:
    def __init__(self, replica, entries):
        self.replica, self.entries, self.current, self.holders = replica, entries, True, 0

    def is_live(self):
        return self.current or self.holders > 0


def distinct(numbered):
    """Generations without those of a configuration that an earlier one has: whatever speaks against these, the first one tells."""
    return [it for place, it in enumerate(numbered) if not any(it[1].entries is other.entries for _, other in numbered[:place])]


class Board:
    def __init__(self, room):
        self.room, self.generations, self.needs = room, [], {}

    def add(self, replica, entries):
        self.leave(replica)
        self.generations.append(Generation(replica, entries))

    def leave(self, replica):
        for generation in self.generations:
            generation.current = generation.current and generation.replica != replica

    def live(self):
        return [(number, own) for number, own in enumerate(self.generations) if own.is_live()]

    def verdict(self, replica, new):
        """The first reason, by looking at each need and at each other live generation."""
        for path, (resource, who) in sorted(self.needs.items()):
            if who not in configuration.list_for(new, resource):
                return f"drops-stored {path} {who_text(who)}"
        leaves = [own for _, own in self.live() if own.replica == replica and own.current and not own.holders]
        others = distinct([(number, own) for number, own in self.live() if own not in leaves])
        made = [new] + [own.entries for _, own in self.live()]
        classes = sorted({class_of(pattern) for entries in made for patterns, _ in entries for pattern in patterns} | {(2, "")})
        for word, reads_new in (("drops-writer", True), ("unread", False)):
            for number, own in others:
                for found in classes:
                    old_list, new_list = list_of_class(own.entries, found), list_of_class(new, found)
                    writer, readers = (old_list[0], new_list) if reads_new else (new_list[0], old_list)
                    if writer not in readers:
                        return f"{word} {number} {class_text(found)} {who_text(writer)}"
        return "pass"

    def paths(self, resource, who):
        found = sorted(path for path, need in self.needs.items() if need == (resource, who))
        return " ".join(["paths", str(len(found))] + found[:1])
