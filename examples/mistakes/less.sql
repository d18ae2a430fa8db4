-- A temporal number is less than another at some instants and not at others: write #<, or ?< for
-- whether it ever is.
SELECT tfrac '[0@2026-05-04, 4@2026-05-05]' < 2;
