-- The ship reports two positions at one second.
CREATE TABLE ships (ship text, trip tgeompoint);
COPY ships FROM 'twice.csv' WITH (FORMAT csv, HEADER);
