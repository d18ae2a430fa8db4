-- Who waits at a stop while which bus is there? Places are metres east and north of the market.
CREATE TABLE stops (stop text, place geometry(Point));
CREATE TABLE buses (line text, track tgeompoint);
CREATE TABLE waits (name text, at text, waits tstzspan);
COPY stops FROM 'stops.csv' WITH (FORMAT csv, HEADER);
COPY buses FROM 'buses.csv' WITH (FORMAT csv, HEADER);
COPY waits FROM 'waits.csv' WITH (FORMAT csv, HEADER);

-- Who can board which bus, and from when to when is it there while they wait? Eva leaves the bridge
-- at 07:06 sharp, when the bus comes: that instant is none of hers. Dora leaves the school at
-- the instant at which bus 2 comes.
SELECT name, stop, line, getTime(atValues(atTime(track, waits), place)) AS can_board
FROM waits, stops, buses
WHERE at = stop AND eDwithin(atTime(track, waits), place, 0);

-- The plan of the day: which bus is at which stop, and when?
SELECT stop, line, getTime(atValues(track, place)) AS at_the_stop FROM stops, buses;
