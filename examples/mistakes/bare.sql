-- A value with a comma needs double quotes in a table file. Without them record 2 has three fields.
CREATE TABLE gates (name text, open tbool);
COPY gates FROM 'bare.csv' WITH (FORMAT csv, HEADER);
SELECT name FROM gates;
