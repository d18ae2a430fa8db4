-- The sum has more than 62 bits. The answer before it is written.
CREATE TABLE counts (ships int);
INSERT INTO counts VALUES (1), (4611686018427387903);
SELECT ships FROM counts WHERE ships < 10;
SELECT ships + ships AS twice FROM counts;
