-- A Monday of three shops: opening hours, shifts and a plan of how many are needed, each a function
-- of time.
CREATE TABLE hours (shop text, open tbool);
CREATE TABLE shifts (clerk text, shop text, duty tbool);
CREATE TABLE plan (shop text, planned tint, needed tint);
COPY hours FROM 'hours.csv' WITH (FORMAT csv, HEADER);
COPY shifts FROM 'shifts.csv' WITH (FORMAT csv, HEADER);
COPY plan FROM 'plan.csv' WITH (FORMAT csv, HEADER);

-- Who is on duty while the shop is open? `&` is AND at each instant at which both sides are known.
-- The hours outside a shift are not in the answer. Dora has no shift: her answer is NULL, printed
-- \N.
SELECT clerk, s.shop, duty & open AS serves
FROM shifts s, hours h
WHERE s.shop = h.shop
ORDER BY clerk;

-- Are as many planned as are needed, and by how many is the plan above the need? The difference of
-- two numbers over time is their difference at each instant.
SELECT shop, planned #>= needed AS enough, planned - needed AS spare
FROM plan;

-- In which shops does the plan leave the counter empty while the shop is open, and when? `open &
-- ~open` is false as long as the hours are known. What differs from that is true somewhere.
SELECT h.shop, open & (planned #= 0) AS empty
FROM hours h, plan p
WHERE h.shop = p.shop AND (open & (planned #= 0)) <> (open & ~open);

-- Which two clerks have shifts at one counter that share an instant, and when are both there? If
-- two values share no instant, `&` gives NULL.
SELECT a.clerk || ' and ' || b.clerk AS pair, a.duty & b.duty AS both
FROM shifts a, shifts b
WHERE a.shop = b.shop AND a.clerk < b.clerk AND (a.duty & b.duty) IS NOT NULL;

-- The shops that have a shift, each once, the last name first.
SELECT DISTINCT shop FROM shifts ORDER BY shop DESC LIMIT 2;
