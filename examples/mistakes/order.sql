-- The instants of a literal must rise.
SELECT tint '[3@2026-05-04 09:00, 2@2026-05-04 08:00]';
