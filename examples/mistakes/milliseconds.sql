-- One ship reports to the millisecond, and how near the two came has more than 62 bits. To the
-- second, as the other one reports, it fits: with 10:00:07.123 as 10:00:07 and 10:00:15.246 as
-- 10:00:15 the answer is f.
SELECT eDwithin(tgeompoint '[POINT(620 480)@2026-05-04 10:00:00, POINT(618 428)@2026-05-04 10:00:07.123, POINT(571 382)@2026-05-04 10:00:15.246]',
                tgeompoint '[POINT(745 455)@2026-05-04 10:00:02, POINT(732 503)@2026-05-04 10:00:11, POINT(512 418)@2026-05-04 10:00:20]', 50);
