"""checks/thin.sh: mobthin on random tables, against an exact computation.

A trip here is a list of sequences. A sequence says whether its first and its last instant are
included, and has its points: (second, x, y), each number a Fraction.
"""
import random
import subprocess
import sys
from datetime import datetime, timedelta
from fractions import Fraction

# Its functions serve `checks/random/wide_trips.py` too.
MOBSQL, MOBTHIN, WORK = sys.argv[1:4] if __name__ == "__main__" else ("", "", "")
TABLES = 40
# Tables with numbers whose tests do not fit 62 bits.
LARGE_TABLES = 20
DISTANCES = ["0", "1/2", "1", "3/2", "2.5", "7", "1e3"]
ADAY = datetime(2001, 1, 1)


def is_straight(p, q, r):
    """Whether a point that moves from p over q to r keeps its velocity at q."""
    return all((q[k] - p[k]) * (r[0] - q[0]) == (r[k] - q[k]) * (q[0] - p[0]) for k in (1, 2))


def straightened(points):
    """The points at which the velocity changes, with the first and the last one."""
    kept = []
    for point in points:
        while len(kept) > 1 and is_straight(kept[-2], kept[-1], point):
            kept.pop()
        kept.append(point)
    return kept


def joined(trip):
    """The trip, with two sequences joined where one ends at the place and instant of the next."""
    whole = []
    for lower, upper, points in trip:
        if whole and whole[-1][2][-1] == points[0] and whole[-1][1] != lower:
            whole[-1] = (whole[-1][0], upper, whole[-1][2] + points[1:])
        else:
            whole.append((lower, upper, points))
    return [(lower, upper, straightened(points)) for lower, upper, points in whole]


def passes(points, p, n, square):
    """Whether the straight course from p to n is near each point between them."""
    (t, x, y), (u, v, w) = points[p], points[n]
    for s, a, b in points[p + 1:n]:
        part = (s - t) / (u - t)
        if (x + (v - x) * part - a) ** 2 + (y + (w - y) * part - b) ** 2 > square:
            return False
    return True


def thinned(points, square):
    """The kept points of a sequence."""
    kept = [0]
    while kept[-1] < len(points) - 1:
        n = kept[-1] + 1
        while n + 1 < len(points) and passes(points, kept[-1], n + 1, square):
            n += 1
        kept.append(n)
    return straightened([points[i] for i in kept])


def point_text(point):
    moment = ADAY + timedelta(seconds=int(point[0]))
    return f"POINT({point[1]} {point[2]})@{moment}+00"


def sequence_text(sequence):
    lower, upper, points = sequence
    return "(["[lower] + ", ".join(map(point_text, points)) + ")]"[upper]


def trip_text(trip):
    if all(len(points) == 1 for _, _, points in trip):
        texts = [point_text(points[0]) for _, _, points in trip]
        return texts[0] if len(texts) == 1 else "{" + ", ".join(texts) + "}"
    texts = [sequence_text(sequence) for sequence in trip]
    return texts[0] if len(texts) == 1 else "{" + ", ".join(texts) + "}"


def field(text):
    return f'"{text}"' if "," in text else text


def table_text(rows):
    lines = [f"{number},{field(trip_text(trip)) if trip else NULL}" for number, trip in rows]
    return "\n".join(["id,trip"] + lines) + "\n"


NULL = "\\N"


def random_points(rng, second, place, count):
    """Points with a whole or half number for each coordinate, at rising seconds."""
    points = [(Fraction(second), *place)]
    for _ in range(count - 1):
        _, x, y = points[-1]
        second += rng.randint(1, 4)
        x, y = x + Fraction(rng.randint(-4, 4), 2), y + Fraction(rng.randint(-4, 4), 2)
        points.append((Fraction(second), x, y))
    return points


def random_trip(rng):
    trip = []
    second = rng.randint(0, 100)
    place = (Fraction(rng.randint(-9, 9)), Fraction(rng.randint(-9, 9)))
    lower = rng.random() < 0.7
    for _ in range(rng.randint(1, 4)):
        points = random_points(rng, second, place, rng.choice([1, 2, 3, 5, 9, 40]))
        upper = rng.random() < 0.5
        if len(points) == 1:
            lower = upper = True
            if trip and trip[-1][1] and trip[-1][2][-1][0] == points[0][0]:
                break
        trip.append((lower, upper, points))
        second, place = int(points[-1][0]), points[-1][1:]
        next_is = rng.choice(["gap", "jump", "touch", "hole"])
        lower = not upper
        if next_is == "gap":
            second += rng.randint(1, 9)
            lower = rng.random() < 0.5
        elif next_is == "jump":
            place = (place[0] + rng.randint(1, 5), place[1])
        elif next_is == "hole" and not upper:
            lower = False
    return trip


def large_trip(rng):
    """A trip along a straight course, with a noise of up to 2^30 that has small denominators."""
    x, y = Fraction(rng.randrange(2**40)), Fraction(rng.randrange(2**40))
    east, north = rng.randint(-2**31, 2**31), rng.randint(-2**31, 2**31)
    points = []
    for i in range(rng.choice([3, 9, 40])):
        noise = [Fraction(rng.randint(-2**30, 2**30), rng.randint(1, 97)) for _ in range(2)]
        points.append((Fraction(7 * i), x + east * i + noise[0], y + north * i + noise[1]))
    return [(True, True, points)]


def different(distance, text, thin, wanted):
    for rows in zip(text.splitlines(), thin.splitlines(), wanted.splitlines()):
        if rows[1] != rows[2]:
            return f"with {distance}\n{rows[0]}\nbecomes\n{rows[1]}\nand not\n{rows[2]}"
    return f"with {distance} other rows are written"


def run(command, text, status):
    done = subprocess.run(
        command, input=text, text=True, capture_output=True, cwd=WORK, check=False)
    if done.returncode != status:
        raise SystemExit(f"{command} ended with status {done.returncode}: {done.stderr}")
    return done.stdout


def read_again(distance, thin, count):
    """Compares what mobsql reads with the thinned table.

    It also asks for the rows that exist at other times, or are further away than the distance to
    the east or to the north.
    """
    script = f"""CREATE TABLE whole (id int, trip tgeompoint);
CREATE TABLE thin (id int, trip tgeompoint);
COPY whole FROM 'trips.csv' WITH (FORMAT csv, HEADER);
COPY thin FROM 'thin.csv' WITH (FORMAT csv, HEADER);
SELECT id, trip FROM thin;
SELECT a.id FROM whole a, thin b
WHERE a.id = b.id AND NOT (asText(getTime(a.trip)) = asText(getTime(b.trip))
    AND (getX(a.trip) - getX(b.trip)) %<= {distance}
    AND (getX(b.trip) - getX(a.trip)) %<= {distance}
    AND (getY(a.trip) - getY(b.trip)) %<= {distance}
    AND (getY(b.trip) - getY(a.trip)) %<= {distance});
"""
    wanted = f"{thin}({count} rows)\nid\n(0 rows)\n"
    answer = run([MOBSQL], script, 0)
    if answer != wanted:
        raise SystemExit(f"with {distance} mobsql reads\n{answer}\nand not\n{wanted}")


def points_in(rows):
    return sum(len(points) for _, trip in rows for _, _, points in trip or [])


def main():
    rng = random.Random(20)
    left_out = 0
    for number in range(TABLES):
        distance = DISTANCES[number % len(DISTANCES)]
        square = Fraction(distance) ** 2
        rows = [(n + 1, random_trip(rng) if rng.random() < 0.9 else None) for n in range(12)]
        text = table_text(rows)
        kept = [(n, trip and [(a, b, thinned(p, square)) for a, b, p in joined(trip)])
                for n, trip in rows]
        wanted = table_text(kept)
        for mode in ([], ["--wide"]):
            thin = run([MOBTHIN, "--within", distance, *mode], text, 0)
            if thin != wanted:
                raise SystemExit(different(distance, text, thin, wanted))
        if run([MOBTHIN, "--within", "0"], thin, 0) != thin:
            raise SystemExit(f"with 0 this does not stay as it is:\n{thin}")
        for name, content in (("trips.csv", text), ("thin.csv", thin)):
            with open(f"{WORK}/{name}", "w", encoding="utf-8") as file:
                file.write(content)
        read_again(distance, thin, len(rows))
        left_out += points_in(rows) - points_in(kept)
    for number in range(LARGE_TABLES):
        distance = 2**rng.choice([22, 24, 26, 28])
        rows = [(n + 1, large_trip(rng)) for n in range(12)]
        text = table_text(rows)
        kept = [(n, [(a, b, thinned(p, distance**2)) for a, b, p in joined(trip)])
                for n, trip in rows]
        wanted = table_text(kept)
        run([MOBTHIN, "--within", str(distance)], text, 8)
        thin = run([MOBTHIN, "--within", str(distance), "--wide"], text, 0)
        if thin != wanted:
            raise SystemExit(different(distance, text, thin, wanted))
        left_out += points_in(rows) - points_in(kept)
    print(f"thin: {TABLES + LARGE_TABLES} tables tried, {left_out} points left out")


if __name__ == "__main__":
    main()
