-- The file is missing: its name is gates.csv.
CREATE TABLE gates (name text, open tbool);
COPY gates FROM 'gate.csv' WITH (FORMAT csv, HEADER);
SELECT name FROM gates;
