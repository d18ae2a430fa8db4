"""Tries tools/log_to_table --every and --to on random logs: `python3 checks/log_tracks.py`.

It shares nothing with the script. It reads the table, works out the distance of both tracks in
exact fractions, and wants of each track: the span of the reported one, its instants, its places
to the unit, and a bound that is not below the distance and less than a tenth of the unit above.
"""
import random
import re
import subprocess
import sys
from datetime import datetime, timedelta
from fractions import Fraction

SCRIPT = "tools/log_to_table"
START = datetime(2026, 2, 27)
SILENT = 3600
POINT = re.compile(r"POINT\((\S+) (\S+)\)@(\d{4}-\d\d-\d\d)[ T]"
                   r"(\d\d):(\d\d):(\d\d(?:\.\d+)?)(Z|\+01:30)?")


def time_text(chance, second):
    """An instant in one of the ways in which a log may say it."""
    whole, part = divmod(second, 1)
    ahead = chance.random() < 0.3
    moment = START + timedelta(seconds=int(whole) + 5400 * ahead)
    digits = f".{int(part * 1000):03}" if part else ""
    return moment.strftime("%Y-%m-%dT%H:%M:%S") + digits + ("+01:30" if ahead else "Z")


def second_of(found):
    date, hour, minute, second, zone = found[2:]
    since = datetime.strptime(date, "%Y-%m-%d") - START
    behind = 5400 if zone == "+01:30" else 0
    return since.days * 86400 + int(hour) * 3600 + int(minute) * 60 + Fraction(second) - behind


def random_log(chance):
    """The reports of some ships, as lists of second, x and y, with gaps and midnights."""
    log = {}
    for ship in range(chance.randint(1, 5)):
        second = Fraction(chance.choice([80000, chance.randint(0, 90000)]))
        x, y, reports = Fraction(0), Fraction(0), []
        grain = chance.choice([Fraction(1), Fraction(1), Fraction(1, 1000)])
        for _ in range(chance.randint(1, 12)):
            reports.append((second, x, y))
            second += chance.choice([1, 7, 180, 600, 1800, 1800, 2600, 3600, 3600, 30000])
            second += chance.choice([0, chance.randint(1, 999) * grain])
            x += Fraction(chance.randint(-40000, 40000), 10)
            y += Fraction(chance.randint(-40000, 40000), 10)
        log[f"ship {ship}"] = reports
    return log


def place(track, second):
    for (start, x, y), (end, next_x, next_y) in zip(track, track[1:]):
        if start <= second <= end:
            part = Fraction(second - start) / (end - start)
            return x + (next_x - x) * part, y + (next_y - y) * part
    assert track[0][0] == second == track[-1][0], "an instant outside of the span"
    return track[0][1:]


def square_at(one, other, second):
    (x1, y1), (x2, y2) = place(one, second), place(other, second)
    return (x1 - x2) ** 2 + (y1 - y2) ** 2


def wanted_instants(first, last, every):
    """The full seconds between two instants that are multiples after their midnight."""
    return [second for second in range(int(first), int(last) + 1)
            if first < second < last and second % 86400 % every == 0]


def pieces_of(reports):
    pieces = [reports[:1]]
    for earlier, later in zip(reports, reports[1:]):
        if later[0] - earlier[0] > SILENT:
            pieces.append([])
        pieces[-1].append(later)
    return pieces


def tracks_of(table):
    """The pieces of each ship in a table file."""
    tracks = {}
    for row in table.splitlines()[1:]:
        ship, literal = re.fullmatch(r'(ship \d+),"(.*)"', row).groups()
        pieces = re.findall(r"\[([^\]]*)\]", literal)
        tracks[ship] = [[(second_of(it), Fraction(it[0]), Fraction(it[1]))
                         for it in POINT.findall(piece)] for piece in pieces]
    return tracks


def check_piece(chance, reported, new, every, unit):
    """What a piece has to be like, and the square of the greatest distance."""
    if len(reported) == 1:
        assert new == reported, "a piece of one report changed"
        return 0
    first, last = reported[0][0], reported[-1][0]
    inner = wanted_instants(first, last, every) if every else [it[0] for it in reported[1:-1]]
    assert [it[0] for it in new] == [first, *inner, last], "other instants"
    for second, *found in new:
        for value, exact in zip(found, place(reported, second)):
            assert abs(value - exact) <= unit / 2, "a place that is too far"
            assert not unit or value % unit == 0, "a place between the units"
    seconds = {it[0] for it in reported + new}
    square = max(square_at(reported, new, it) for it in seconds)
    for _ in range(20):
        between = first + (last - first) * Fraction(chance.randint(0, 9999), 9999)
        assert square_at(reported, new, between) <= square, "farther between the instants"
    return square


def check_bound(note, square, unit):
    bound = Fraction(re.search(r": at most (\S+) m from", note)[1])
    assert bound**2 >= square, f"a bound below the distance: {note}"
    assert bound == 0 or (bound - unit / 10) ** 2 < square, f"a bound too far above: {note}"


def check_log(seed):
    chance = random.Random(seed)
    log = random_log(chance)
    every, to = chance.choice([(37, "1"), (60, "1"), (600, "0.1"), (5000, "5"), (0, "0.5"),
                               (600, "")])
    lines = [f"{time_text(chance, second)},{ship},{float(x)},{float(y)}"
             for ship, reports in log.items() for second, x, y in reports]
    chance.shuffle(lines)
    words = ["--every", str(every)] * (every > 0) + ["--to", to] * (to != "")
    ran = subprocess.run([sys.executable, SCRIPT, "track", str(SILENT), *words], check=True,
                         text=True, input="\n".join(["time,ship,x,y", *lines]), capture_output=True)
    tracks, notes = tracks_of(ran.stdout), ran.stderr.splitlines()
    assert list(tracks) == sorted(log) and len(notes) == len(log) + 1, "other ships"
    unit, squares = Fraction(to or 0), []
    for note, (ship, new) in zip(notes, tracks.items()):
        reported = pieces_of(log[ship])
        assert len(new) == len(reported) and note.startswith(ship + ": "), "other pieces"
        squares.append(max(check_piece(chance, *it, every, unit) for it in zip(reported, new)))
        check_bound(note, squares[-1], unit or 1)
    assert notes[-1].startswith("all tracks: "), "no bound over all"
    check_bound(notes[-1], max(squares), unit or 1)
    return len(log)


def main():
    tracks = 0
    for seed in range(30):
        try:
            tracks += check_log(seed)
        except AssertionError as why:
            sys.exit(f"log tracks, seed {seed}: {why}: FAILED")
    print(f"log tracks: {tracks} random tracks, each within its bound")


main()
