"""What the random trials share. Each trial is another script of this folder."""
import concurrent.futures
import os
import random
import subprocess
import sys
from fractions import Fraction

ROOT = os.path.dirname(os.path.dirname(os.path.dirname(os.path.abspath(__file__))))


def arguments(runs):
    """The program, how many runs, the seed, and further arguments. It prints the seed."""
    words = sys.argv[1:]
    if not words or words[0].startswith("-") or not all(it.isdigit() for it in words[1:]):
        sys.exit(sys.modules["__main__"].__doc__)
    count = int(words[1]) if len(words) > 1 else runs
    seed = int(words[2]) if len(words) > 2 else random.SystemRandom().randrange(10**9)
    print(f"seed {seed}, {count} runs", flush=True)
    return os.path.abspath(words[0]), count, seed, words[3:]


def ran(words, text, seconds, **more):
    """The status, output and notes of a run, or None where it does not end within `seconds`."""
    try:
        seen = subprocess.run(words, input=text, capture_output=True, timeout=seconds, **more)
    except subprocess.TimeoutExpired:
        return None
    return seen.returncode, seen.stdout, seen.stderr


def all_of(one, numbers):
    """Tries each number, as many at once as there are processors, and prints how they ended.

    `one` answers how a run ended, and what to print where that broke a rule, or None.
    """
    counts, broken = {}, 0
    with concurrent.futures.ThreadPoolExecutor(os.cpu_count()) as pool:
        for ended, fault in pool.map(one, numbers):
            counts[ended] = counts.get(ended, 0) + 1
            if fault is not None:
                broken += 1
                print(fault[:8000], flush=True)
    endings = ", ".join(f"{counts[it]} with {it}" for it in sorted(counts, key=str))
    print(f"{endings}; {broken} broke a rule")
    return 1 if broken else 0


def status_of(seen):
    """How a run ended."""
    return "no end" if seen is None else f"status {seen[0]}"


def read(path):
    with open(path, "rb") as file:
        return file.read()


def scripts_of(rows):
    """The lines of the script or table of each row of a file of rows."""
    for row in read(rows).split(b"\n\n"):
        yield row, [it[2:] for it in row.split(b"\n") if it.startswith(b"< ")]


def share(a, b):
    """Whether two closed ranges share a number. A range that is None is everything."""
    return a is None or b is None or (a[0] <= b[1] and b[0] <= a[1])


def least_square(begin, end):
    """The least square of the distance to (0, 0) on the straight way between two points."""
    step = (end[0] - begin[0], end[1] - begin[1])
    square = step[0] ** 2 + step[1] ** 2
    part = Fraction(0)
    if square != 0:
        part = min(1, max(0, Fraction(-(begin[0] * step[0] + begin[1] * step[1])) / square))
    return (begin[0] + part * step[0]) ** 2 + (begin[1] + part * step[1]) ** 2
