-- The string north is not closed. Its quote begins a string that runs to the end of the script.
CREATE TABLE gates (name text, open tbool);
COPY gates FROM 'gates.csv' WITH (FORMAT csv, HEADER);
SELECT open FROM gates WHERE name = 'north;
