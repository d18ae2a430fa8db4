-- The columns of the file are in another order than those of the table.
CREATE TABLE gates (open tbool, name text);
COPY gates FROM 'gates.csv' WITH (FORMAT csv, HEADER);
