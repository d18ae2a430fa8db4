#!/usr/bin/env -S python3 -B
"""Runs mobsql on spoilt scripts and table files, and prints each run that breaks a rule.

    checks/random/fuzz.py PROGRAM [RUNS [SEED]]

It takes the scripts and files of `examples` and the scripts of `checks/rows`, and spoils one to
four places of them: bytes flipped, cut or doubled, parts of other scripts put in, numbers made as
large as they can be. It makes 20,000 runs if no number is given. The rules:

- a run ends within 10 seconds, with a status of the table of docs/ERRORS.md;
- under the statuses 2, 3, 6 and 7 it writes nothing; under 8 it writes whole answers;
- its notes are exactly the line of the status, and empty under 0;
- one run in eight is made again with three workers, and gives the same.

The seed is printed first, so a trial can be repeated. It ends with 0 where no run broke a rule.
"""
import glob
import os
import random
import re
import sys
import tempfile

from trials import ROOT, all_of, arguments, ran, read, scripts_of, status_of

SECONDS = 10
NOTES = {
    0: rb"",
    2: rb"usage: .*\n",
    3: rb"read fault: .+\n",
    6: rb".+: record \d+, field \d+: refusal \d+ \(\w+\)\n",
    7: rb"statement \d+, byte \d+: refusal \d+ \(\w+\)\n",
    8: rb"statement \d+, rows (-|\d+( \d+)*), byte \d+: "
       rb"(formula F[1-7]|the value) passes 62 bits\n",
}
SILENT = (2, 3, 6, 7)
LARGE = (
    b"4611686018427387903", b"-4611686018427387903", b"4611686018427387904", b"0", b"-1",
    b"1/4611686018427387903", b"3000000000", b"1e18",
)
ODD = (
    b"\x00", b"\xff", b"\xc3", b"\r\n", b"'", b"''", b"\"", b"--", b";", b"\\N", b"\xef\xbb\xbf",
    b"(", b")", b",", b"{", b"]", b"@", b"\xe2\x80\x8b",
)
DATES = (
    b"0001-01-01", b"9999-12-31 23:59:59.999999", b"2001-02-29",
    b"2000-01-01 00:00:00(1/4611686018427387903)",
)
DATE = rb"\d{4}-\d\d-\d\d( \d\d:\d\d:\d\d)?"


def samples():
    """Each script with the files of its folder, by name."""
    found = []
    for script in sorted(glob.glob(f"{ROOT}/examples/*/*.sql")):
        tables = sorted(glob.glob(f"{os.path.dirname(script)}/*.csv"))
        found.append((read(script), {os.path.basename(it): read(it) for it in tables}))
    for rows in sorted(glob.glob(f"{ROOT}/checks/rows/*.rows")):
        for row, lines in scripts_of(rows):
            asked = [it[2:] for it in row.split(b"\n") if it.startswith(b"? ")]
            lines += [b"SELECT " + it.split(" → ".encode())[0] + b";" for it in asked]
            if lines:
                found.append((b"\n".join(lines), {}))
    return found


def exchanged(chance, text):
    """The text with two of its words exchanged."""
    words = list(re.finditer(rb"[A-Za-z_]+|[^\sA-Za-z_0-9]", text))
    if len(words) < 2:
        return text + b";"
    first, second = sorted(chance.sample(words, 2), key=lambda it: it.start())
    between = text[first.end() : second.start()]
    changed = second.group() + between + first.group()
    return text[: first.start()] + changed + text[second.end() :]


def spoil(chance, text, others):
    """The text with one place changed."""
    place = chance.randrange(len(text) + 1)
    end = min(len(text), place + chance.choice((1, 1, 2, 5, 20, 200)))
    way = chance.choice((0, 1, 2, 3, 4, 5, 6, 6, 6, 6, 7, 7, 8))
    if way == 0 and text:
        place = min(place, len(text) - 1)
        return text[:place] + bytes([text[place] ^ 1 << chance.randrange(8)]) + text[place + 1 :]
    if way == 1:
        return text[:place]
    if way == 2:
        return text[:place] + text[end:]
    if way == 3:
        return text[:place] + text[place:end] * chance.choice((2, 2, 3, 50)) + text[end:]
    if way == 4:
        return text[:place] + chance.choice(ODD) + text[place:]
    if way == 5:
        other = chance.choice(others)
        begin = chance.randrange(len(other) + 1)
        return text[:place] + other[begin : begin + chance.choice((3, 10, 40))] + text[place:]
    if way in (6, 7):
        spans = list(re.finditer(rb"\d+" if way == 6 else DATE, text))
        if spans:
            span = chance.choice(spans)
            new = chance.choice(LARGE if way == 6 else DATES)
            return text[: span.start()] + new + text[span.end() :]
    return exchanged(chance, text)


def spoilt(chance, known):
    """A script, its files and the arguments of one run."""
    script, files = chance.choice(known)
    files = dict(files)
    others = [it for it, _ in known]
    for _ in range(chance.choice((1, 1, 1, 2, 3, 4))):
        if files and chance.random() < 0.4:
            name = chance.choice(sorted(files))
            files[name] = spoil(chance, files[name], others)
        else:
            script = spoil(chance, script, others)
    if files and chance.random() < 0.02:
        files.pop(chance.choice(sorted(files)))
    workers = ["--workers", str(chance.randint(1, 64))]
    epoch = ["--epoch", chance.choice(("2026-05-04", "0001-01-01", "2001-02-29"))]
    demo = ["--demo", chance.choice(("0", "1", "7", "1001"))]
    return script, files, chance.choice(([], [], [], workers, epoch, demo, ["--wide"]))


def run(program, script, files, words):
    with tempfile.TemporaryDirectory() as folder:
        for name, text in files.items():
            with open(os.path.join(folder, name), "wb") as file:
                file.write(text)
        return ran([program, *words], script, SECONDS, cwd=folder)


def fault(seen, again):
    """The rule that a run breaks, or None."""
    if seen is None:
        return f"has not ended after {SECONDS} seconds"
    status, answer, note = seen
    if status not in NOTES:
        return f"ends with status {status}"
    if status in SILENT and answer:
        return f"writes under status {status}"
    if not re.fullmatch(NOTES[status], note, re.DOTALL):
        return f"notes {note[:200]!r} under status {status}"
    if answer and not answer.endswith(b" rows)\n"):
        return "writes a part of an answer"
    if again != seen:
        return "gives something else, or has not ended, with another number of workers"
    return None


def one(program, known, seed, number):
    """How one run ended, and what to print where that breaks a rule."""
    chance = random.Random(f"{seed} {number}")
    script, files, words = spoilt(chance, known)
    seen = run(program, script, files, words)
    repeated = number % 8 == 0 and "--workers" not in words
    again = run(program, script, files, words + ["--workers", "3"]) if repeated else seen
    broken = fault(seen, again)
    if broken is not None:
        broken = (f"run {number} of seed {seed} {broken}\n"
                  f"  arguments {words}\n  script {script!r}\n  files {files!r}")
    return status_of(seen), broken


def main():
    program, runs, seed, _ = arguments(20000)
    known = samples()
    return all_of(lambda number: one(program, known, seed, number), range(runs))


if __name__ == "__main__":
    sys.exit(main())
