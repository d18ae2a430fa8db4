-- The same table from a file with two faults. The state of device 2, the third field of the third record (the header is
-- the first), has its instants out of order; the record behind it is short. The first fault is the one that is told. A
-- script is accepted as a whole, files included, before any statement runs: so the first SELECT writes nothing either.
SELECT 'not written' AS nothing;
CREATE TABLE devices (id int, room text, state ttext);
COPY devices FROM 'broken.csv' WITH (FORMAT csv, HEADER);
SELECT id, state #= 'fault' AS faulty FROM devices ORDER BY id;
