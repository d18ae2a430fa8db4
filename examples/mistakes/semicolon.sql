-- A semicolon is missing after the first statement.
CREATE TABLE gates (name text, open tbool)
COPY gates FROM 'gates.csv' WITH (FORMAT csv, HEADER);
