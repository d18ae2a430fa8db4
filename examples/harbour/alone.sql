-- Who met nobody? A LEFT JOIN keeps each ship, with NULL for the other one where there is none.
CREATE TABLE tracks (ship text, track tgeompoint);
COPY tracks FROM 'tracks.csv' WITH (FORMAT csv, HEADER);
CREATE INDEX by_track ON tracks USING GIST (track);

-- Each ship with those that came within 50 metres of it, or alone.
SELECT a.ship, b.ship AS met
FROM tracks a LEFT JOIN tracks b ON a.ship <> b.ship AND eDwithin(a.track, b.track, 50)
ORDER BY a.ship, met;

-- Those that met nobody.
SELECT a.ship AS alone
FROM tracks a LEFT JOIN tracks b ON a.ship <> b.ship AND eDwithin(a.track, b.track, 50)
WHERE b.ship IS NULL;

-- Gannet lies at anchor all day. Without it, each ship with those that were about at its time.
DELETE FROM tracks WHERE ship = 'Gannet';
SELECT a.ship, b.ship AS about
FROM tracks a LEFT JOIN tracks b ON a.ship <> b.ship AND atTime(a.track, getTime(b.track)) IS NOT NULL
WHERE a.ship > 'H';
