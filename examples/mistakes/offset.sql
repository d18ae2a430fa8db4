-- Write an offset as +02 or +02:00.
SELECT timestamptz '2026-05-04T12:00:00+0200';
