-- Who was where? The basin has a quay in it, which is not water. Its edges belong to both. In the
-- slow water ships keep to 5 knots.
CREATE TABLE tracks (ship text, track tgeompoint);
CREATE TABLE zones (zone text, area geometry(Polygon));
COPY tracks FROM 'tracks.csv' WITH (FORMAT csv, HEADER);
COPY zones FROM 'zones.csv' WITH (FORMAT csv, HEADER);

-- Which ships were in the basin, and from when to when?
SELECT ship, getTime(atGeometry(track, area)) AS in_basin
FROM tracks, zones
WHERE zone = 'basin' AND eIntersects(track, area);

-- Which ships were there at noon, and where?
SELECT ship, valueAtTimestamp(track, timestamptz '2026-05-05 12:00') AS place
FROM tracks, zones
WHERE zone = 'basin' AND eIntersects(atTime(track, timestamptz '2026-05-05 12:00'), area);

-- Which way did each ship go through the slow water? The places and instants at which it came in,
-- turned and left give its speed. Merlin touched the edge at one instant.
SELECT ship, atGeometry(track, area) AS way
FROM tracks, zones
WHERE zone = 'slow' AND eIntersects(track, area);
