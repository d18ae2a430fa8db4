-- A string is a text unless its type stands before it: timestamptz '2026-05-04 12:00'.
CREATE TABLE gates (name text, open tbool);
COPY gates FROM 'gates.csv' WITH (FORMAT csv, HEADER);
SELECT name, valueAtTimestamp(open, '2026-05-04 12:00') AS noon FROM gates;
