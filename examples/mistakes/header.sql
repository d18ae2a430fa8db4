-- The first column is gate in the file and name in the table.
CREATE TABLE gates (name text, open tbool);
COPY gates FROM 'header.csv' WITH (FORMAT csv, HEADER);
SELECT name FROM gates;
