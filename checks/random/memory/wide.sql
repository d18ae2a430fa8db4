CREATE TABLE ship (id int, trip tgeompoint);
INSERT INTO ship VALUES
    (1, '[POINT(-1500000000 1)@2001-01-01, POINT(1500000000 1)@2001-01-02]'),
    (2, '[POINT(0 0)@2001-01-01, POINT(0 5)@2001-01-02]'),
    (3, '[POINT(3 0)@2001-01-01, POINT(3 4)@2001-01-02]');
SELECT a.id AS a, b.id AS b, nearestApproachSquared(a.trip, b.trip) AS near FROM ship a, ship b
    WHERE a.id < b.id AND eDwithin(a.trip, b.trip, 5);
CREATE INDEX ship_trip ON ship USING GIST (trip);
SELECT a.id AS a, b.id AS b FROM ship a, ship b WHERE eDwithin(a.trip, b.trip, 4);
SELECT id FROM ship WHERE eDwithin(trip, geometry 'POINT(0 0)', 3000000000);
DELETE FROM ship WHERE nearestApproachSquared(trip, geometry 'POINT(0 1)') > 0;
SELECT id FROM ship;
