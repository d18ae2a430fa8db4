-- A comma is missing between the two items.
CREATE TABLE gates (name text, open tbool);
COPY gates FROM 'gates.csv' WITH (FORMAT csv, HEADER);
SELECT name open FROM gates;
