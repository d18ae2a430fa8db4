-- Places that are given to a billionth of a metre have squares that no longer fit: mobsql then says where, and never rounds. What helps:
-- give places no finer than they were measured (to the centimetre here).
SELECT nearestApproachSquared(
    tgeompoint '[POINT(600.123456789 250)@2026-05-05 09:00, POINT(900 250.987654321)@2026-05-05 09:10]',
    geometry 'POINT(700 300)');
