-- There is no function closed.
CREATE TABLE gates (name text, open tbool);
COPY gates FROM 'gates.csv' WITH (FORMAT csv, HEADER);
SELECT name, closed(open) AS closed FROM gates;
