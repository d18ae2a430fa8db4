-- Who came near whom? Thirteen ships on one day, in metres from the light. Gannet lies at anchor.
-- Heron leaves and comes back. `log_to_table track 3600 < log.csv > tracks.csv` made the table
-- from the log, which has a line for each report.
CREATE TABLE tracks (ship text, track tgeompoint);
CREATE TABLE watches (watch text, hours tstzspan);
COPY tracks FROM 'tracks.csv' WITH (FORMAT csv, HEADER);
COPY watches FROM 'watches.csv' WITH (FORMAT csv, HEADER);

-- Which two ships came within 50 metres, and in which watch?
SELECT a.ship AS one, b.ship AS other, watch
FROM tracks a, tracks b, watches
WHERE a.ship < b.ship AND eDwithin(atTime(a.track, hours), b.track, 50);

-- And how near did they come? The answer is the square of the distance, so it is exact: 2500 is 50
-- metres, and 0 is one place.
SELECT a.ship AS one, b.ship AS other, nearestApproachSquared(a.track, b.track) AS squared
FROM tracks a, tracks b
WHERE a.ship < b.ship AND eDwithin(a.track, b.track, 50);
