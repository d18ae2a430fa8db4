-- The file names a reference system, as asEWKT writes it. There is none here: asText writes the
-- same without it.
CREATE TABLE ships (ship text, trip tgeompoint);
COPY ships FROM 'srid.csv' WITH (FORMAT csv, HEADER);
SELECT ship FROM ships;
