-- To a table `tracks` of ships: the tracks, and who came within 50 metres of whom. `near` is where
-- one was in an octagon around the other, and `times` when. The octagon contains the circle of 50
-- metres, and is within that of 55. `squared` is the square of the least distance. The last two
-- answers are for a map and for rows.
CREATE INDEX by_track ON tracks USING GIST (track);

SELECT ship, track FROM tracks;

SELECT a.ship AS one, b.ship AS other, nearestApproachSquared(a.track, b.track) AS squared,
    atTime(a.track, whenTrue(
        (getX(a.track) - getX(b.track) #>= -50) & (getX(a.track) - getX(b.track) #<= 50)
        & (getY(a.track) - getY(b.track) #>= -50) & (getY(a.track) - getY(b.track) #<= 50)
        & (getX(a.track) - getX(b.track) + (getY(a.track) - getY(b.track)) #>= -71)
        & (getX(a.track) - getX(b.track) + (getY(a.track) - getY(b.track)) #<= 71)
        & (getX(a.track) - getX(b.track) - (getY(a.track) - getY(b.track)) #>= -71)
        & (getX(a.track) - getX(b.track) - (getY(a.track) - getY(b.track)) #<= 71))) AS near
FROM tracks a, tracks b
WHERE a.ship < b.ship AND eDwithin(a.track, b.track, 50);

SELECT a.ship AS one, b.ship AS other, nearestApproachSquared(a.track, b.track) AS squared,
    whenTrue(
        (getX(a.track) - getX(b.track) #>= -50) & (getX(a.track) - getX(b.track) #<= 50)
        & (getY(a.track) - getY(b.track) #>= -50) & (getY(a.track) - getY(b.track) #<= 50)
        & (getX(a.track) - getX(b.track) + (getY(a.track) - getY(b.track)) #>= -71)
        & (getX(a.track) - getX(b.track) + (getY(a.track) - getY(b.track)) #<= 71)
        & (getX(a.track) - getX(b.track) - (getY(a.track) - getY(b.track)) #>= -71)
        & (getX(a.track) - getX(b.track) - (getY(a.track) - getY(b.track)) #<= 71)) AS times
FROM tracks a, tracks b
WHERE a.ship < b.ship AND eDwithin(a.track, b.track, 50);
