-- The instants at which two are near need not be fractions. "When were they near?" in
-- docs/COOKBOOK.md says what to ask instead.
SELECT tDwithin(tgeompoint '[POINT(0 0)@2026-05-04, POINT(4 0)@2026-05-05]', geometry 'POINT(1 1)', 2);
