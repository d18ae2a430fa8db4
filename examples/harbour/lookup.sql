-- Who came near whom, with an index: the same ships and watches as in near.sql. The index looks
-- each ship up by where and when the other one was, in place of trying each pair. The answer is the
-- same.
CREATE TABLE tracks (ship text, track tgeompoint);
CREATE TABLE watches (watch text, hours tstzspan);
CREATE TABLE zones (zone text, area geometry(Polygon));
COPY tracks FROM 'tracks.csv' WITH (FORMAT csv, HEADER);
COPY watches FROM 'watches.csv' WITH (FORMAT csv, HEADER);
COPY zones FROM 'zones.csv' WITH (FORMAT csv, HEADER);
CREATE INDEX by_track ON tracks USING GIST (track);

-- The table with the index comes after those that the condition also names; here after the watches
-- too.
EXPLAIN SELECT * FROM tracks a, watches, tracks b
WHERE a.ship < b.ship AND eDwithin(atTime(a.track, hours), b.track, 50);

SELECT a.ship AS one, b.ship AS other, watch
FROM tracks a, watches, tracks b
WHERE a.ship < b.ship AND eDwithin(atTime(a.track, hours), b.track, 50);

-- Which ships were in the basin? A polygon looks ships up as well.
EXPLAIN SELECT * FROM zones, tracks WHERE zone = 'basin' AND eIntersects(track, area);

SELECT ship FROM zones, tracks WHERE zone = 'basin' AND eIntersects(track, area);
