-- Write a day as 2026-05-04.
SELECT timestamptz '04.05.2026';
