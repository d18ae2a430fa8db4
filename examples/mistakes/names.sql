-- Names have no quotes: a double quote begins no token.
CREATE TABLE gates (name text, open tbool);
COPY gates FROM 'gates.csv' WITH (FORMAT csv, HEADER);
SELECT "name" FROM gates;
