-- The only JOIN is LEFT JOIN: separate the tables with commas, and write the condition in WHERE.
CREATE TABLE gates (name text, open tbool);
COPY gates FROM 'gates.csv' WITH (FORMAT csv, HEADER);
SELECT a.name, b.name FROM gates a JOIN gates b ON a.name < b.name;
