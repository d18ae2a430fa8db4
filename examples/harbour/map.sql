-- For the map in `map.svg`: the light, the zones, the track of each ship, and the pairs that came
-- within 50 metres. `near` is where the one was in the square of 50 metres to each side of the
-- other, and `squared` the square of the least distance. This draws it:
-- mobsql < map.sql | picture map 'Who came within 50 metres of whom' > map.svg
CREATE TABLE tracks (ship text, track tgeompoint);
CREATE TABLE zones (zone text, area geometry(Polygon));
COPY tracks FROM 'tracks.csv' WITH (FORMAT csv, HEADER);
COPY zones FROM 'zones.csv' WITH (FORMAT csv, HEADER);
CREATE INDEX by_track ON tracks USING GIST (track);

SELECT 'light' AS mark, geometry 'POINT(0 0)' AS place;

SELECT zone, area FROM zones;

SELECT ship, track FROM tracks;

SELECT a.ship AS one, b.ship AS other, nearestApproachSquared(a.track, b.track) AS squared,
    atTime(a.track, whenTrue(
        (getX(a.track) - getX(b.track) #>= -50) & (getX(a.track) - getX(b.track) #<= 50)
        & (getY(a.track) - getY(b.track) #>= -50) & (getY(a.track) - getY(b.track) #<= 50))) AS near
FROM tracks a, tracks b
WHERE a.ship < b.ship AND eDwithin(a.track, b.track, 50);
