"""Runs of two linked modules and runs with foreign functions, row by row: the lines of `pair-history` and
`foreign-history`, the same lines by `replay` of what `pair` and `foreign` print, and calls that are refused."""
import tempfile

import foreign_rows
import pair_rows
from run_tables import MAX

# The files of a call have these names, in the order of its words.
PAIR_FILES = ("l.wasm", "r.wasm", "s.json")
FOREIGN_FILES = ("m.wasm", "d.json", "s.json")


def put_files(group, names, contents):
    """The files are those of one call, in the group's folder."""
    for name, data in zip(names, contents):
        group.put(name, data)


def check_runs(group, command, names, rows):
    """Each run's lines are those of its history and those of its replay module."""
    for what, *contents, turns, lines in rows:
        put_files(group, names, contents)
        words = [*names, str(turns)]
        group.prints([f"{command}-history", *words], lines, f"{what}: `{command}-history` prints the lines")
        group.put("b.wasm", group.done(command, *words, what=f"{what}: `{command}` ends with status 0"))
        group.prints(["replay", "b.wasm", MAX], lines, f"{what}: `replay` prints the lines")


def check_refused(group, command, names, rows):
    """Both commands refuse each call with its status and line."""
    for what, *contents, turns, status, line in rows:
        put_files(group, names, contents)
        for called in (command, f"{command}-history"):
            group.refused([called, *names, str(turns)], status, line, f"{called}: {what}")


def check_words(group, calls):
    """No file is there, so a call whose words are taken would end with status 3."""
    folder = tempfile.mkdtemp(dir=group.room)
    for words in calls:
        group.refused(words, 2, "usage", cwd=folder)


def check_pairs(group):
    """A pair that does not link is refused before its script is looked at."""
    check_runs(group, "pair", PAIR_FILES, pair_rows.RUNS)
    unlinked = [(what, left, right, b"{", 5, 21, line) for what, left, right, line in pair_rows.UNLINKED]
    check_refused(group, "pair", PAIR_FILES, unlinked)
    check_refused(group, "pair", PAIR_FILES, pair_rows.REFUSED)
    check_words(group, pair_rows.USAGE)


def check_foreign(group):
    """The declared functions are the host's own, and not imports."""
    check_runs(group, "foreign", FOREIGN_FILES, foreign_rows.RUNS)
    check_refused(group, "foreign", FOREIGN_FILES, foreign_rows.REFUSED)
    check_words(group, foreign_rows.USAGE)


def checks(group):
    check_pairs(group)
    check_foreign(group)
