-- Record 3 of the file has one field, and the table has two columns.
CREATE TABLE gates (name text, open tbool);
COPY gates FROM 'short.csv' WITH (FORMAT csv, HEADER);
SELECT name FROM gates;
