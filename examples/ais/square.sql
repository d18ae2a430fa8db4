-- When was each ship in a square of 1 km to each side of another? That fits at any distance.
CREATE TABLE ships (ship text, track tgeompoint);
COPY ships FROM 'ships.csv' WITH (FORMAT csv, HEADER);
SELECT a.ship AS one, b.ship AS other, whenTrue(
    (getX(a.track) - getX(b.track) #>= -1000) & (getX(a.track) - getX(b.track) #<= 1000)
    & (getY(a.track) - getY(b.track) #>= -1000) & (getY(a.track) - getY(b.track) #<= 1000)) AS times
FROM ships a, ships b WHERE a.ship < b.ship;
