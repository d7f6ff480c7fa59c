"""What vet looks for: one table, each row with its code, how much it weighs, the versions of Kubernetes in which it holds, and
whether it was tried. docs/FORMATS.md has the same rows, and the gate compares the two."""

import enum
from dataclasses import dataclass

# The minor versions of Kubernetes 1 that are known: the first one with the kind EncryptionConfiguration, and the newest whose
# rules stand here.
OLDEST, NEWEST = 13, 34


class Severity(enum.Enum):
    """An error refuses the change, a warning does with --strict, and a note never does."""

    ERROR = "error"
    WARNING = "warning"
    NOTE = "note"


class Seen(enum.Enum):
    """How it is known what an API server does."""

    TRIED = "1.20.2"
    DOCUMENTED = "no"
    # No rule of an API server.
    OWN = "-"


@dataclass(frozen=True)
class Lint:
    """A row: `since` and `until` are the first and the last minor version in which it holds, where there is one."""

    code: str
    severity: Severity
    seen: Seen = Seen.OWN
    since: int | None = None
    until: int | None = None

    def holds(self, minor: int) -> bool:
        return (self.since is None or self.since <= minor) and (self.until is None or minor <= self.until)

    @property
    def versions(self) -> str:
        """In which versions it holds, as people read it."""
        if self.since is not None and self.until is not None:
            return f"1.{self.since} to 1.{self.until}"
        if self.since is not None:
            return f"since 1.{self.since}"
        return "all" if self.until is None else f"until 1.{self.until}"


def _error(code: str, seen: Seen = Seen.OWN, since: int | None = None, until: int | None = None) -> Lint:
    return Lint(code, Severity.ERROR, seen, since, until)


def _warning(code: str, seen: Seen = Seen.OWN, since: int | None = None, until: int | None = None) -> Lint:
    return Lint(code, Severity.WARNING, seen, since, until)


TABLE = (
    # ---- the change itself
    _error("breach"),
    _error("unread"),
    _error("drops-writer"),
    _error("clash"),
    _error("own-writer", Seen.TRIED),
    _warning("drops-reader"),
    _warning("in-the-clear"),
    # ---- refused by the API server, and read by `check`
    _error("unknown-member", Seen.DOCUMENTED, since=31),
    _warning("ignored-member", Seen.TRIED, until=30),
    _error("member-twice", Seen.DOCUMENTED, since=31),
    _error("cachesize-of-v2", Seen.DOCUMENTED, since=25),
    _error("cachesize", Seen.TRIED, until=24),
    _error("timeout", Seen.TRIED),
    _error("endpoint-url", Seen.TRIED),
    _error("no-text", Seen.TRIED),
    _error("nothing", Seen.TRIED),
    _error("lone-dash", Seen.TRIED),
    _error("escaped-slash", Seen.TRIED),
    _error("colon-tab", Seen.TRIED),
    _error("plugin-twice", Seen.DOCUMENTED, since=26),
    _error("colon", Seen.DOCUMENTED),
    _error("masked", Seen.DOCUMENTED, since=27),
    _error("other-events", Seen.DOCUMENTED, since=27),
    _error("extensions", Seen.DOCUMENTED, since=27),
    _error("addresses", Seen.DOCUMENTED, since=27),
    _warning("moved-group", Seen.DOCUMENTED, until=26),
    _error("kms-as-v1", Seen.TRIED, until=24),
    _warning("kms-alpha", Seen.DOCUMENTED, since=25, until=26),
    # ---- read otherwise by the API server
    _error("wildcards", Seen.TRIED, until=26),
    _warning("two-entries", Seen.TRIED),
    _warning("base-otherwise", Seen.TRIED),
    _warning("unsealed", Seen.TRIED, until=25),
    _warning("endpoint-tab", Seen.TRIED),
    _warning("endpoint-host", Seen.DOCUMENTED),
    _warning("unstored", Seen.DOCUMENTED),
    _warning("unknown-resource", Seen.DOCUMENTED),
    # ---- allowed, and dangerous
    _warning("placeholder-endpoint"),
    _warning("other-endpoint"),
    _warning("one-secret"),
    _warning("zero-secret"),
    _warning("text-secret"),
    _warning("example-secret"),
    _warning("identity-first"),
    _warning("aesgcm-writes"),
    _warning("readable-file"),
)
BY_CODE = {lint.code: lint for lint in TABLE}


@dataclass(frozen=True)
class Finding:
    """What was found: the row, the file as it is shown, its line (0 for none), what is so, and what to do."""

    lint: Lint
    file: str
    line: int
    text: str
    do: str
