-- When was each berth taken, and how many ships had a place that is known? A berth is taken while
-- some ship is at its place, and free while each ship is elsewhere.
CREATE TABLE ships (ship text, trip tgeompoint);
CREATE TABLE berths (berth text, place geometry(Point));
COPY ships FROM 'ships.csv' WITH (FORMAT csv, HEADER);
COPY berths FROM 'berths.csv' WITH (FORMAT csv, HEADER);

SELECT berth, tOr(trip #= place) AS taken FROM ships, berths GROUP BY berth;

SELECT tCount(trip) AS known FROM ships;
