-- The first file is there, the second is not. Nothing is read from the first one instead.
CREATE TABLE gates (name text, open tbool);
COPY gates FROM 'gates.csv' WITH (FORMAT csv, HEADER);
COPY gates FROM 'gate.csv' WITH (FORMAT csv, HEADER);
SELECT name FROM gates;
