-- A first line with names is a row as any other, whose words are null where numbers are wanted: FILTER drops it.
sales = LOAD 'sales.csv' USING PigStorage(',') AS (day:chararray, shop:chararray, paid:int);
rows = FILTER sales BY day != 'day';
all_rows = GROUP rows ALL;
sums = FOREACH all_rows GENERATE COUNT(rows), COUNT(rows.paid), SUM(rows.paid), SUM(rows.paid) * 100 / COUNT(rows.paid);
STORE sums INTO 'sums' USING PigStorage(',');
