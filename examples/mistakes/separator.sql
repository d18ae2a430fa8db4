-- The fields of the file are separated by semicolons: the whole line is one field.
CREATE TABLE gates (name text, open tbool);
COPY gates FROM 'separator.csv' WITH (FORMAT csv, HEADER);
