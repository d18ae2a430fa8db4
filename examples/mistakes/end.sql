-- Before a ) the last two values must be equal.
SELECT tbool '[t@2026-05-04 07:00, f@2026-05-04 18:00)';
