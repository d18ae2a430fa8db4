-- When is the florist closed?
CREATE TABLE hours (shop text, open tbool);
COPY hours FROM 'hours.csv' WITH (FORMAT csv, HEADER);
SELECT shop, ~open AS closed FROM hours WHERE shop = 'florist';
