-- One column is misspelt: gates has no column opened.
CREATE TABLE gates (name text, open tbool);
COPY gates FROM 'gates.csv' WITH (FORMAT csv, HEADER);
SELECT name, opened FROM gates;
