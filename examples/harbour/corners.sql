-- The way back to a log: the track of each ship. This writes a line for each of its corners:
-- mobsql < corners.sql | table_to_log x y > corners.csv
CREATE TABLE tracks (ship text, track tgeompoint);
COPY tracks FROM 'tracks.csv' WITH (FORMAT csv, HEADER);
SELECT ship, track FROM tracks;
