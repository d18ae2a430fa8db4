-- How many ships lie at the berth, as it was counted. The count of 2 May repeats the one before it,
-- so it is not printed.
SELECT tint '[2@2026-05-01, 2@2026-05-02, 3@2026-05-04, 0@2026-05-06]';
