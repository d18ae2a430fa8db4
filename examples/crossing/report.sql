-- Did two cars meet on a crossing, and when? Their black boxes recorded the middle of the front
-- bumper, in metres from the middle of the crossing. Between two reports a car goes straight on at
-- one speed.
CREATE TABLE cars (car text, track tgeompoint);
CREATE TABLE areas (area geometry(Polygon));
COPY cars FROM 'cars.csv' WITH (FORMAT csv, HEADER);
INSERT INTO areas VALUES ('POLYGON((-6 -6,6 -6,6 6,-6 6,-6 -6))');

-- Did the two come within 2 metres, and how near? 169/74 is the square of the least distance: about
-- one and a half metres.
SELECT eDwithin(r.track, b.track, 2) AS met, nearestApproachSquared(r.track, b.track) AS squared
FROM cars r, cars b
WHERE r.car = 'red' AND b.car = 'blue';

-- From when to when was each on the crossing? Red came onto it first, by 29/70 of a second.
SELECT car, getTime(atGeometry(track, area)) AS on_the_crossing FROM cars, areas;

-- And when were both?
SELECT getTime(atTime(atGeometry(r.track, area), getTime(atGeometry(b.track, area)))) AS both
FROM cars r, cars b, areas
WHERE r.car = 'red' AND b.car = 'blue';

-- When was the one front in the square of 2 metres to each side of the other?
SELECT whenTrue(
    (getX(r.track) - getX(b.track) #>= -2) & (getX(r.track) - getX(b.track) #<= 2)
    & (getY(r.track) - getY(b.track) #>= -2) & (getY(r.track) - getY(b.track) #<= 2)) AS close
FROM cars r, cars b
WHERE r.car = 'red' AND b.car = 'blue';
