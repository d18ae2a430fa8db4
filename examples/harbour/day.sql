-- A morning in a harbour: the positions of four ships, in kilometres from the light. Between two
-- reports a ship goes straight on. Cygnus was silent between seven and eight. Delta has no report.
CREATE TABLE ships (ship text, trip tgeompoint);
CREATE TABLE berths (berth text, place geometry(Point));
CREATE TABLE stays (ship text, stay tstzspan);
CREATE TABLE weather (fog tbool);
COPY ships FROM 'ships.csv' WITH (FORMAT csv, HEADER);
COPY berths FROM 'berths.csv' WITH (FORMAT csv, HEADER);
COPY stays FROM 'stays.csv' WITH (FORMAT csv, HEADER);
INSERT INTO weather VALUES ('[f@2026-05-04, t@2026-05-04 06:45, f@2026-05-04 08:00, f@2026-05-05)');

-- Where was each ship at half past seven? Nothing is known of Cygnus then.
SELECT ship, valueAtTimestamp(trip, timestamptz '2026-05-04 07:30') AS place FROM ships;

-- Which ship lay at which berth at nine?
SELECT ship, berth
FROM ships, berths
WHERE valueAtTimestamp(trip, timestamptz '2026-05-04 09:00') = place;

-- Which way did the ships go in the fog? It lifted at eight sharp, so that instant is none of it.
SELECT ship, atTime(trip, whenTrue(fog)) AS way FROM ships, weather WHERE trip IS NOT NULL;

-- And outside the stay for which they pay?
SELECT s.ship, minusTime(trip, stay) AS under_way
FROM ships s, stays b
WHERE s.ship = b.ship;

-- From when to when is the place of a ship known, and how far east was it? Aster lay two hours at
-- the berth.
SELECT ship, getTime(trip) AS known, getX(trip) AS east FROM ships
WHERE ship = 'Aster' OR ship = 'Delta';

-- When are the places of two ships both known?
SELECT a.ship || ' and ' || b.ship AS pair, getTime(atTime(a.trip, getTime(b.trip))) AS both
FROM ships a, ships b
WHERE a.ship < b.ship AND atTime(a.trip, getTime(b.trip)) IS NOT NULL;
