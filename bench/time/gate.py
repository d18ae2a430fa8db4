#!/usr/bin/env python3
"""Measures the gate from nothing, by crate and kind, in seconds and in budget seconds.

    bench/time/gate.py run [LOG [FOLDER]]   run the gate, write bench/time/gate.json, and print
    bench/time/gate.py page                 print the part of docs/GATE.md between its two marks
    bench/time/gate.py all                  print every crate, the most expensive first
    bench/time/gate.py above CRATE          print the sums of a crate and of all crates above it
    bench/time/gate.py loop                 print the seconds of the reference loop

`run` clones the commit that is checked out into FOLDER and keeps it there (without FOLDER it takes
a temporary folder). There it runs `rt ci` from nothing, with its output in LOG (gate.log if none is
named). Five times a second it reads the processor time of each process of the prover, so a row
lacks at most a fifth of a second for each check. Nothing else may run on the machine. The other
commands read gate.json of the last run.

Machines differ, and one machine changes its speed within minutes. So once a minute the run times
the reference loop: five million products in Python. A budget second is a second of the run times
0.72, divided by the mean of these times.
"""
import glob
import json
import os
import resource
import subprocess
import sys
import tempfile
import textwrap
import threading
import time
from collections import defaultdict

TICK = os.sysconf("SC_CLK_TCK")
PAUSE = 0.2
BETWEEN_LOOPS = 60
KINDS = ("proof", "tests", "wrong bodies")
# in budget seconds: the proof of a crate, a crate of tests in all, the wrong bodies of a crate
LIMITS = {"proof": 300, "tests": 180, "wrong bodies": 240}
CLOCK_LIMIT = 150  # budget minutes of the whole, by the clock on two processors
LOOP = 0.72  # seconds of the reference loop on the machine of the budget
MOST = 10  # rows of the table
TOP = os.path.dirname(os.path.dirname(os.path.dirname(os.path.abspath(__file__))))
MEASURED = f"{TOP}/bench/time/gate.json"


def loop():
    """The reference loop: the processor seconds of five million products."""
    begun, total = time.process_time(), 0
    for number in range(5_000_000):
        total += number * number
    return time.process_time() - begun


def loop_until(ended, times):
    """Times the reference loop once a minute, each time in a process of its own."""
    while not ended.is_set():
        times.append(float(said(sys.executable, os.path.abspath(__file__), "loop")))
        ended.wait(BETWEEN_LOOPS)


def arguments_of(process):
    with open(f"/proc/{process}/cmdline", "rb") as file:
        return file.read().decode(errors="replace").split("\0")


def crate_and_kind(process, session):
    """The crate that the prover works on, and the kind of work; None for another process."""
    if os.getsid(int(process)) != session:
        return None
    words = arguments_of(process)
    if os.path.basename(words[0]) != "rattle" or "--crate-name" not in words:
        return None
    crate = words[words.index("--crate-name") + 1]
    # wrong bodies, and the check that they begin with, are tried in folders of this name
    if os.path.basename(os.readlink(f"/proc/{process}/cwd")).startswith("rt-edit"):
        return crate, "wrong bodies"
    return crate, "tests" if "--test" in words else "proof"


def seconds_of(process):
    """The processor seconds of a process, and when it began, since numbers are used again."""
    with open(f"/proc/{process}/stat") as file:
        fields = file.read().rpartition(")")[2].split()
    return (int(fields[11]) + int(fields[12])) / TICK, fields[19]


def watch(gate):
    """The processor seconds of each process of the prover: {(number, begin): (part, seconds)}."""
    seen, known = {}, {}
    while gate.poll() is None:
        for process in filter(str.isdigit, os.listdir("/proc")):
            try:
                seconds, begun = seconds_of(process)
                key = process, begun
                if known.get(key) is None:
                    # a new process has the arguments of its parent until it runs its own program
                    known[key] = crate_and_kind(process, gate.pid)
                if known[key]:
                    seen[key] = known[key], seconds
            except (OSError, ValueError):
                continue
        time.sleep(PAUSE)
    return seen


def from_nothing():
    """The command of the gate that uses nothing of an earlier run."""
    said = subprocess.run(["rt", "help"], capture_output=True, text=True)
    return ["rt", "ci", "--anew"] if "--anew" in said.stdout + said.stderr else ["rt", "ci"]


def said(*words):
    return subprocess.run(words, check=True, capture_output=True, text=True).stdout.strip()


def by_crate(seen, folder):
    """What each crate took by kind, and how many wrong bodies it has."""
    crates = defaultdict(lambda: dict.fromkeys(KINDS, 0.0))
    for (crate, kind), seconds in seen.values():
        crates[crate][kind] += seconds
    for crate, parts in crates.items():
        parts["how many"] = len(glob.glob(f"{folder}/crates/{crate}/must-fail/*.edit"))
    return crates


def run(log, folder):
    """Runs the gate, writes what it took to gate.json, and answers the status of the gate."""
    with tempfile.TemporaryDirectory(prefix="gate-") as temporary, open(log, "w") as output:
        clone = folder or f"{temporary}/clone"
        subprocess.run(["git", "clone", "--quiet", TOP, clone], check=True)
        ended, loops = threading.Event(), []
        timer = threading.Thread(target=loop_until, args=(ended, loops))
        timer.start()
        begun = time.monotonic()
        try:
            gate = subprocess.Popen(from_nothing(), cwd=clone, stdout=output,
                                    stderr=subprocess.STDOUT, stdin=subprocess.DEVNULL,
                                    start_new_session=True)
            seen = watch(gate)
            clock = time.monotonic() - begun
        finally:
            ended.set()
            timer.join()
        crates = by_crate(seen, clone)
    used = resource.getrusage(resource.RUSAGE_CHILDREN)
    with open(log) as output:
        outcome = output.read().rstrip().rpartition("\n")[2]
    write({
        "date": time.strftime("%Y-%m-%d"),
        "commit": said("git", "-C", TOP, "rev-parse", "HEAD")[:8],
        "kit": said("rt", "version").split("\n")[0], "outcome": outcome,
        "processors": len(os.sched_getaffinity(0)), "clock": clock,
        "used": used.ru_utime + used.ru_stime - sum(loops), "loops": loops, "crates": crates,
    })
    return gate.returncode


def write(measured):
    """Writes gate.json, one crate a line."""
    head = {key: value for key, value in measured.items() if key != "crates"}
    head["clock"], head["used"] = round(head["clock"]), round(head["used"])
    head["loops"] = [round(it, 3) for it in head["loops"]]
    lines = [f'    "{crate}": {json.dumps(rounded(parts))}'
             for crate, parts in sorted(measured["crates"].items())]
    with open(MEASURED, "w") as file:
        file.write(json.dumps(head, indent=2)[:-2] + ',\n  "crates": {\n')
        file.write(",\n".join(lines) + "\n  }\n}\n")


def filled(text, indent=""):
    return textwrap.fill(text, 100, subsequent_indent=indent, break_on_hyphens=False)


def rounded(parts):
    return {kind: round(value) for kind, value in parts.items()}


class Measured:
    """What the last run took, in budget seconds."""

    def __init__(self):
        with open(MEASURED) as file:
            self.run = json.load(file)
        self.loop = sum(self.run["loops"]) / len(self.run["loops"])
        self.unit = LOOP / self.loop
        self.crates = {crate: {kind: parts[kind] * self.unit for kind in KINDS}
                       for crate, parts in self.run["crates"].items()}

    def of_kind(self, kind):
        """The crates with seconds of a kind, the most expensive first."""
        found = [(self.judged(crate, kind), crate) for crate in self.crates]
        return sorted((it for it in found if it[0] > 0), key=lambda it: -it[0])

    def judged(self, crate, kind):
        """The seconds that a limit speaks of. A crate of tests counts with its proof."""
        parts = self.crates[crate]
        if kind == "wrong bodies":
            return parts[kind]
        if (parts["tests"] > 0) != (kind == "tests"):
            return 0
        return parts["proof"] + parts["tests"]

    def sum(self, kind):
        return sum(parts[kind] for parts in self.crates.values())

    def head(self):
        run, loops = self.run, self.run["loops"]
        return filled(
            f"{run['date']}, commit {run['commit']}, {run['kit']}, {run['processors']} "
            f"processors: {run['outcome']}. The reference loop took {self.loop:.3f} seconds, "
            f"the mean of {len(loops)} from {min(loops):.2f} to {max(loops):.2f}. "
            f"So a second of this run is {self.unit:.3f} budget seconds.")

    def sums(self):
        """The whole in minutes."""
        used, clock = self.run["used"] * self.unit, self.run["clock"] * self.unit
        columns = [self.sum(kind) for kind in KINDS]
        columns += [used - sum(columns), used, clock]
        row = lambda name, unit: f"| {name} | " + " | ".join(
            f"{it / unit / 60:.0f}" for it in columns) + " |"
        return ["| minutes | proofs | tests | wrong bodies | the rest | in all | by the clock |",
                "|---|---|---|---|---|---|---|", row("of this run", self.unit), row("budget", 1)]

    def most(self):
        """The most expensive crates of each kind."""
        lines = ["| proof of | s | crate of tests | s | wrong bodies of | how many | s |",
                 "|---|---|---|---|---|---|---|"]
        proofs, tests, bodies = ([(crate, seconds) for seconds, crate in self.of_kind(kind)]
                                 for kind in KINDS)
        for place in range(MOST):
            cells = []
            for found, counted in ((proofs, False), (tests, False), (bodies, True)):
                crate, seconds = found[place] if place < len(found) else (None, 0)
                count = str(self.run["crates"][crate]["how many"]) if crate else ""
                cells += [f"`{crate}`" if crate else ""] + [count] * counted
                cells.append(f"{seconds:.0f}" if crate else "")
            lines.append("| " + " | ".join(cells) + " |")
        return lines

    def over(self):
        """What is over its limit, a line each."""
        lines = []
        clock = self.run["clock"] * self.unit / 60
        if self.run["processors"] == 2 and clock > CLOCK_LIMIT:
            lines.append(f"- the whole: {clock:.0f} minutes of {CLOCK_LIMIT}")
        for kind in KINDS:
            high = [f"`{crate}` {seconds:.0f}" for seconds, crate in self.of_kind(kind)
                    if seconds > LIMITS[kind]]
            if high:
                lines.append(filled(f"- {kind}, above {LIMITS[kind]}: " + ", ".join(high), "  "))
        return lines or ["- nothing"]

    def page(self):
        most = f"The {MOST} most expensive of each kind, in budget seconds:"
        over = "Over the budget, in budget seconds:"
        return "\n".join([self.head(), "", *self.sums(), "", most, "", *self.most(), "", over, "",
                          *self.over()])

    def all(self):
        lines = [self.head(), "", "In budget seconds:", "",
                 "| crate | proof | tests | wrong bodies | how many | in all |",
                 "|---|---|---|---|---|---|"]
        for crate, parts in sorted(self.crates.items(), key=lambda it: -sum(it[1].values())):
            cells = [f"{parts[kind]:.0f}" for kind in KINDS]
            count = self.run["crates"][crate]["how many"]
            lines.append(f"| `{crate}` | " + " | ".join(cells)
                         + f" | {count} | {sum(parts.values()):.0f} |")
        return "\n".join(lines)

    def above(self, crate):
        names = above(crate)
        sums = [sum(self.crates[it][kind] for it in names if it in self.crates) for kind in KINDS]
        return (f"{crate} and {len(names) - 1} crates above it, in budget minutes: "
                + ", ".join(f"{kind} {it / 60:.0f}" for kind, it in zip(KINDS, sums)))


def above(crate):
    """A crate and all that use it, by crates.txt."""
    uses = {}
    with open(f"{TOP}/crates.txt") as file:
        for line in file:
            name, colon, used = line.split("#")[0].partition(":")
            if colon:
                uses[name.strip()] = used.split()
    if crate not in uses:
        sys.exit(f"there is no crate {crate}")
    found, more = {crate}, True
    while more:
        more = {name for name, used in uses.items() if name not in found and found & set(used)}
        found |= more
    return sorted(found)


def main():
    words = sys.argv[1:]
    if words[:1] == ["run"] and len(words) <= 3:
        log, folder = (words[1:] + ["gate.log", None][len(words) - 1 :])
        status = run(log, folder)
        print(Measured().page())
        return status
    if words == ["loop"]:
        print(loop())
        return 0
    if words in (["page"], ["all"]):
        print(getattr(Measured(), words[0])())
        return 0
    if words[:1] == ["above"] and len(words) == 2:
        print(Measured().above(words[1]))
        return 0
    sys.exit(__doc__)


if __name__ == "__main__":
    sys.exit(main())
