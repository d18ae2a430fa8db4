-- How near did each pair come at the times of times.csv? This makes the file:
-- mobsql < square.sql | sed '$d; s/[.(][0-9/)]*+00/+00/g' > times.csv
CREATE TABLE ships (ship text, track tgeompoint);
CREATE TABLE pairs (one text, other text, times tstzspanset);
COPY ships FROM 'ships.csv' WITH (FORMAT csv, HEADER);
COPY pairs FROM 'times.csv' WITH (FORMAT csv, HEADER);
SELECT one, other, nearestApproachSquared(atTime(a.track, times), b.track) AS squared
FROM pairs, ships a, ships b WHERE a.ship = one AND b.ship = other;
