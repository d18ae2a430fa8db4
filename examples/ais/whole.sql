-- How near did two ships come that report 12 and 10 seconds apart, to a tenth of a metre? At 08:20
-- they pass each other 21 km apart. The square of that distance does not fit 62 bits.
CREATE TABLE ships (ship text, track tgeompoint);
COPY ships FROM 'ships.csv' WITH (FORMAT csv, HEADER);
SELECT a.ship AS one, b.ship AS other, nearestApproachSquared(a.track, b.track) AS squared
FROM ships a, ships b WHERE a.ship < b.ship;
