-- Beside an aggregate each item is a column of GROUP BY: add GROUP BY name.
CREATE TABLE gates (name text, open tbool);
COPY gates FROM 'gates.csv' WITH (FORMAT csv, HEADER);
SELECT name, count(*) FROM gates;
