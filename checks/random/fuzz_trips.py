#!/usr/bin/env -S python3 -B
"""Runs a program over trips on spoilt tables and arguments, and prints each run that breaks a rule.

    checks/random/fuzz_trips.py PROGRAM [RUNS [SEED]]

PROGRAM is mobnear, mobthin or mobtile. The trial takes the tables of `checks/trips` and `examples`,
spoils up to four places of them as fuzz.py does, and the arguments of one run in four. It makes
20,000 runs if no number is given. The rules:

- a run ends within 10 seconds, with a status of the table of the program's page;
- under any status but 0 it writes nothing; its notes are exactly the line of the status;
- an answer of mobnear or mobtile ends with the number of its rows;
- one run of mobtile in four is made again with three workers, and gives the same;
- a thinned table is thinned again, which ends with 0 or 8.

The seed is printed first, so a trial can be repeated. It ends with 0 where no run broke a rule.
"""
import glob
import os
import random
import re
import sys

from fuzz import LARGE, SECONDS, spoil
from trials import ROOT, all_of, arguments, ran, read, scripts_of, status_of

NOTES = {
    0: rb"",
    2: rb"usage: [^\n]*\n",
    6: rb"(table: record \d+, field \d+: refusal \d+ \(\w+\)|rows \d+: refusal 13 \(Limit\))\n",
    8: rb"rows \d+( \d+)?: (formula F[1-7]|the value) passes 62 bits\n",
}
NUMBERS = ("1", "2", "5", "10", "1/2", ".5", "1e3", "0", "100", "3/7", "4611686018427387903")
SIZES = ("1", "2", "5", "50", "1000", "1/2")
WIDTHS = ("10", "100", "3600", "86400")
TARGETS = (
    "POINT(0 0)",
    "POINT(1/2 -3.5)",
    "POINT(5 1)@2001-01-01 00:00:09",
    "[POINT(0 0)@2001-01-01, POINT(9 0)@2001-01-02]",
    "{[POINT(0 0)@2001-01-01, POINT(9 0)@2001-01-01 00:00:20), [POINT(3 3)@2001-01-01 00:00:30]}",
)


def of_near(chance):
    return ["--k", str(chance.choice((1, 2, 5, 10, 1000))), "--to", chance.choice(TARGETS)]


def of_thin(chance):
    return ["--within", chance.choice(NUMBERS), *chance.choice(([], ["--wide"]))]


def of_tile(chance):
    near = ["--near", chance.choice(NUMBERS)]
    divided = ["--near", "10", "--workers", str(chance.randint(1, 64))]
    grid = ["--size", chance.choice(SIZES), "--width", chance.choice(WIDTHS)]
    return grid + chance.choice(([], near, divided))


ARGUMENTS = {"mobnear": of_near, "mobthin": of_thin, "mobtile": of_tile}


def samples():
    """Tables of trips, whole."""
    found = [read(it) for it in sorted(glob.glob(f"{ROOT}/examples/*/trips.csv"))]
    for rows in sorted(glob.glob(f"{ROOT}/checks/trips/*.rows")):
        found += [b"\n".join(lines) + b"\n" for _, lines in scripts_of(rows) if lines]
    return found


def words_of(chance, name):
    """The arguments of one run; one list in four is spoilt."""
    epochs = ([], [], [], ["--epoch", "2001-01-01"], ["--epoch=0001-01-01"])
    words = ARGUMENTS[name](chance) + chance.choice(epochs)
    place = chance.randrange(len(words))
    way = chance.randrange(16)
    odd = ("", "-", "--", "--help", "--workers", "65", "-1", "\udcff")
    if way == 0:
        del words[place]
    elif way == 1:
        words.insert(place, words[chance.randrange(len(words))])
    elif way == 2:
        words.insert(place, chance.choice(odd))
    elif way == 3:
        words[place] = os.fsdecode(chance.choice(LARGE))
    return words


def fault(name, seen):
    """The rule that a run breaks, or None."""
    if seen is None:
        return f"has not ended after {SECONDS} seconds"
    status, answer, note = seen
    if status not in NOTES:
        return f"ends with status {status}"
    if not re.fullmatch(NOTES[status], note):
        return f"notes {note[:200]!r} under status {status}"
    if status != 0:
        return f"writes under status {status}" if answer else None
    if name != "mobthin" and not answer.endswith(b"\n(%d rows)\n" % (answer.count(b"\n") - 2)):
        return "does not end with the number of its rows"
    return None


def once_more(name, program, words, table, seen, number):
    """The rule that a second run breaks, or None."""
    if name == "mobtile" and number % 4 == 0 and "--workers" not in words and seen[0] != 2:
        again = ran([program, *words, "--workers", "3"], table, SECONDS)
        return None if again == seen else "gives something else, or has not ended, with 3 workers"
    if name == "mobthin" and seen[0] == 0:
        again = ran([program, *words], seen[1], SECONDS)
        return None if again is not None and again[0] in (0, 8) else "does not read what it wrote"
    return None


def one(program, known, seed, number):
    """How one run ended, and what to print where that breaks a rule."""
    chance = random.Random(f"{seed} {number}")
    name, table = os.path.basename(program), chance.choice(known)
    for _ in range(chance.choice((0, 0, 1, 1, 1, 2, 3, 4))):
        table = spoil(chance, table, known)
    words = words_of(chance, name)
    seen = ran([program, *words], table, SECONDS)
    broken = fault(name, seen) or once_more(name, program, words, table, seen, number)
    if broken is not None:
        broken = f"run {number} of seed {seed} {broken}\n  arguments {words}\n  table {table!r}"
    return status_of(seen), broken


def main():
    program, runs, seed, _ = arguments(20000)
    if os.path.basename(program) not in ARGUMENTS:
        sys.exit(__doc__)
    known = samples()
    return all_of(lambda number: one(program, known, seed, number), range(runs))


if __name__ == "__main__":
    sys.exit(main())
