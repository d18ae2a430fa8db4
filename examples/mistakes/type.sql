-- AND joins booleans. On temporal booleans write &.
CREATE TABLE gates (name text, open tbool);
COPY gates FROM 'gates.csv' WITH (FORMAT csv, HEADER);
SELECT a.open AND b.open AS both FROM gates a, gates b WHERE a.name = 'north' AND b.name = 'south';
