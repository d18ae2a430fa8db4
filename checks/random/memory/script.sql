CREATE TABLE ship (id int, name text, seen bool, trip tgeompoint, load tfrac, crew tint, call ttext,
    free tbool, area geometry(Polygon), port geometry(Point), frame stbox, time tstzspan, times
    tstzspanset, at timestamptz, share numeric);
CREATE INDEX ship_trip ON ship USING GIST (trip);
INSERT INTO ship VALUES (1, 'Alba', true,
    '[POINT(0 0)@2001-01-01, POINT(10 0)@2001-01-01 00:00:10]',
    '[1@2001-01-01, 3/2@2001-01-01 00:00:10]', '[3@2001-01-01, 4@2001-01-02]',
    '{"in"@2001-01-01, "out"@2001-01-02}', '[t@2001-01-01, f@2001-01-02]',
    'POLYGON((0 0,4 0,4 4,0 4,0 0))', 'POINT(1 1)', 'STBOX X((0,0),(4,4))',
    '[2001-01-01, 2001-01-02)', '{[2001-01-01, 2001-01-02), [2001-01-03, 2001-01-04]}',
    '2001-01-01 12:00:00', '7/3');
COPY ship FROM 'ships.csv' WITH (FORMAT csv, HEADER);
EXPLAIN SELECT a.id, b.id FROM ship a, ship b WHERE a.id < b.id AND eDwithin(a.trip, b.trip, 5);
SELECT a.id AS a, b.id AS b, nearestApproachSquared(a.trip, b.trip) AS near FROM ship a, ship b
    WHERE a.id < b.id AND eDwithin(a.trip, b.trip, 5);
SELECT id, atGeometry(trip, area) AS inside, atStbox(trip, frame) AS framed, load #> 1 AS over, crew
    + 1 AS more, call || '!' AS said, ~free AS busy, times, at, share, port, time FROM ship WHERE
    trip && stbox 'STBOX X((0,0),(4,4))' ORDER BY name DESC, id LIMIT 3;
SELECT DISTINCT seen FROM ship ORDER BY seen;
SELECT a.id AS a, b.id AS b FROM ship a LEFT JOIN ship b ON a.id < b.id AND eDwithin(a.trip, b.trip,
    50) LEFT JOIN ship c ON c.id = b.id + 9 WHERE c.id IS NULL;
DELETE FROM ship WHERE trip && stbox 'STBOX X((0,0),(500,500))' AND id <> 2;
SELECT id FROM ship ORDER BY id;
DELETE FROM ship;
SELECT id FROM ship;
