-- There is no 30 February: field 2 of record 3.
CREATE TABLE gates (name text, open tbool);
COPY gates FROM 'date.csv' WITH (FORMAT csv, HEADER);
SELECT name FROM gates;
