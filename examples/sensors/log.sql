-- The log of a night: the state of each device as a text, and the temperature of two of them as a
-- whole number, each a function of time. `log_to_table celsius 86400 < readings.csv > heat.csv`
-- made the table of temperatures from the readings.
CREATE TABLE devices (id int, room text, state ttext);
CREATE TABLE heat (device int, celsius tint);
COPY devices FROM 'devices.csv' WITH (FORMAT csv, HEADER);
COPY heat FROM 'heat.csv' WITH (FORMAT csv, HEADER);

-- When was a device out of order? Device 3 reports its state at three instants and nothing between
-- them, so the answer is known at those instants alone. Device 4 has no report.
SELECT id, state #= 'fault' AS faulty FROM devices ORDER BY id;

-- The log with the room in front of each state. `||` joins texts, at each instant if one of them
-- changes over time.
SELECT room || ': ' || state AS line FROM devices WHERE id >= 2 AND state IS NOT NULL;

-- When do two devices of one room agree?
SELECT a.id AS one, b.id AS other, a.state #= b.state AS agree
FROM devices a, devices b
WHERE a.room = b.room AND a.id < b.id;

-- When was a device on and hotter than 60 degrees?
SELECT id, (state #= 'on') & (celsius #> 60) AS hot
FROM devices, heat
WHERE id = device;
