#!/usr/bin/env -S python3 -B
"""Refuses each allocation of one run, one a run, and prints each run that breaks a rule.

    checks/random/memory.py PROGRAM [WORKERS]

PROGRAM is mobsql, mobnear, mobthin or mobtile. mobsql runs `memory/script.sql`, which has a column
of each type, an index, a probe, left joins, a DELETE and a table file. Then it runs
`memory/wide.sql` with --wide: ships whose nearness is computed in 62 bits and in numbers of any
size. The others read the table of their example. It needs gcc. The rules:

- a run ends with status 0 or 5, or with 3 or 4 where an adapter found no memory;
- its notes are the line of that status;
- under status 0 it writes what the run writes that is refused nothing;
- under any other status mobsql writes the first few whole answers of that run, and the other
  programs write nothing;
- with --wide mobsql asks as often for memory as without it for nearness whose steps fit 62 bits
  (beside reading the option), and more often if one does not.

It ends with 0 where no run broke a rule.
"""
import os
import subprocess
import sys
import tempfile

from trials import ROOT, all_of, ran, read, status_of

HERE = f"{ROOT}/checks/random/memory"
SECONDS = 60
NOTES = {
    0: [b""],
    3: [b"read fault: script\n", b"read fault: ships.csv\n", b"read fault: table\n"],
    4: [b"write fault\n"],
    5: [b"no memory\n"],
}
ASKED = "[POINT(0 0)@2001-01-01, POINT(9 0)@2001-01-02]"
# With 1000000000 in place of FAR each step fits. With 3000000000 the squares do not.
NEAR = [
    "SELECT eDwithin(tgeompoint 'POINT(FAR 1)@2001-01-01', geometry 'POINT(0 0)', FAR) AS x;",
    "SELECT nearestApproachSquared(tgeompoint '[POINT(-FAR 1)@2001-01-01, POINT(FAR 1)@2001-01-02]'"
    ", geometry 'POINT(0 0)') AS x;",
]
# the arguments of each program, and its inputs
RUNS = {
    "mobsql": [([], f"{HERE}/script.sql"), (["--wide"], f"{HERE}/wide.sql")],
    "mobnear": [(["--k", "2", "--to", ASKED], f"{ROOT}/examples/nearest/trips.csv")],
    "mobthin": [(["--within", "1"], f"{ROOT}/examples/thin/trips.csv")],
    "mobtile": [(["--size", "5", "--width", "3600", "--near", "3"],
                 f"{ROOT}/examples/tile/trips.csv")],
}


def run(program, words, text, shim, refused):
    """The status, answer and note of a run, and how many allocations it asked for."""
    with tempfile.TemporaryDirectory() as folder:
        count = os.path.join(folder, "count")
        environment = {"LD_PRELOAD": shim, "REFUSE": str(refused), "COUNT": count}
        seen = ran([program, *words], text, SECONDS, cwd=HERE, env=environment)
        with open(count, "rb") as file:
            return seen, int.from_bytes(file.read(), "little")


def fronts(answer):
    """The texts of the first few whole answers."""
    texts, text = [b""], b""
    for line in answer.splitlines(keepends=True):
        text += line
        if line.startswith(b"(") and line.endswith(b" rows)\n"):
            texts.append(text)
    return texts


def fault(whole, parts, seen):
    """The rule that a run breaks, or None. With an error it may write these parts of the whole."""
    if seen is None:
        return f"has not ended after {SECONDS} seconds"
    status, answer, note = seen
    if status not in NOTES:
        return f"ends with status {status}: {note!r}"
    if answer not in ([whole] if status == 0 else parts):
        return f"writes {answer[-200:]!r} under status {status}"
    if note not in NOTES[status]:
        return f"notes {note!r} under status {status}"
    return None


def trial(program, words, table, shim):
    """Runs the program once for each allocation. It answers the status of this script."""
    text = read(table)
    (status, whole, note), most = run(program, words, text, shim, 0)
    if status != 0 or note:
        sys.exit(f"with all its memory the run ends with status {status}: {note!r}")
    if most == 0:
        sys.exit("no allocation was seen: take a built program, not that of ./try")
    print(f"{os.path.basename(table)}: {most} allocations", flush=True)
    parts = fronts(whole) if os.path.basename(program) == "mobsql" else [b""]

    def one(number):
        seen, _ = run(program, words, text, shim, number)
        broken = fault(whole, parts, seen)
        broken = broken and f"allocation {number} refused: the run {broken}"
        return status_of(seen), broken

    return all_of(one, range(1, most + 1))


def paths(program, shim):
    """Whether numbers of any size are made where a step does not fit, and only there."""
    def asked(words, text):
        (status, _, _), count = run(program, words, text.encode(), shim, 0)
        return count if status == 0 else sys.exit(f"status {status}: {words} {text}")

    word = asked(["--wide"], "") - asked([], "")
    for query in NEAR:
        small, large = (query.replace("FAR", it) for it in ("1000000000", "3000000000"))
        narrow = asked([], small) + word
        wide, larger = asked(["--wide"], small), asked(["--wide"], large)
        print(f"{query} {narrow}, {wide} and {larger} allocations", flush=True)
        if not narrow == wide < larger:
            return False
    return True


def main():
    if not 2 <= len(sys.argv) <= 3 or os.path.basename(sys.argv[1]) not in RUNS:
        sys.exit(__doc__)
    program, workers = os.path.abspath(sys.argv[1]), (sys.argv[2:] or ["3"])[0]
    name = os.path.basename(program)
    divided = ["--workers", workers] if name in ("mobsql", "mobtile") else []
    with tempfile.TemporaryDirectory() as folder:
        shim, source = os.path.join(folder, "refuse.so"), f"{HERE}/refuse.c"
        build = ["gcc", "-O2", "-shared", "-fPIC", "-o", shim, source, "-ldl"]
        subprocess.run(build, check=True)
        if name == "mobsql" and not paths(program, shim):
            sys.exit("with --wide memory is asked for where each step fits, or only there")
        return max(trial(program, words + divided, table, shim) for words, table in RUNS[name])


if __name__ == "__main__":
    sys.exit(main())
