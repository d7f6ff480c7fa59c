"""Writes the cases of test_run, crates/test_run/stdin: tables by hand, pairs of causes, and random calls with a fixed seed.
With the word `check` it compares them instead. What each call leaves is said by tools/stored/stored run_answers, at whose head the format
stands; here nothing is, but of the cases of altered_tables, whose answers are compared with what is stored."""

import sys
from pathlib import Path

sys.dont_write_bytecode = True

from run_tables import altered_tables, call_tables, configuration_tables, fleet_tables, gen_tables, migrate_tables, plan_tables, plugin_tables, rewrite_tables, store_tables, stored_tables, verify_tables, watch_tables, word_tables, yaml_tables
from run_tables.form import Book

STORED = Path(__file__).resolve().parent.parent.parent / "crates" / "test_run" / "stdin"
ANSWERS = STORED.with_name("stdout")


def main():
    book = Book()
    for part in (word_tables, configuration_tables, yaml_tables, call_tables, store_tables, plugin_tables, stored_tables, migrate_tables, plan_tables, rewrite_tables, fleet_tables, gen_tables, verify_tables, watch_tables, altered_tables):
        part.add_all(book)
    if sys.argv[1:] != ["check"]:
        STORED.write_text(book.text())
    elif STORED.read_text() != book.text():
        sys.exit(f"not so: {STORED} isn't what is made here")
    else:
        differing = list(altered_tables.compare(ANSWERS.read_text()))
        if differing:
            sys.exit("\n".join(["not so, by run_tables/altered_tables.py:", *differing]))
    print(f"{len(book.names)} cases", file=sys.stderr)


if __name__ == "__main__":
    main()
