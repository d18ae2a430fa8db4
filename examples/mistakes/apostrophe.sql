-- A quote inside a string is doubled: 'O''Neill'. Here the string ends after O, and the last quote
-- begins a string that is not closed.
CREATE TABLE gates (name text, open tbool);
COPY gates FROM 'gates.csv' WITH (FORMAT csv, HEADER);
SELECT open FROM gates WHERE name = 'O'Neill';
