-- ROLLUP groups by the prefixes of the list: by both, by the first alone, and all rows together.
sales = LOAD 'sales' AS (what:chararray, year:chararray, paid:int);
by_prefixes = CUBE sales BY ROLLUP(what, year);
sums = FOREACH by_prefixes GENERATE group.what, group.year, SUM(cube.paid);
STORE sums INTO 'sums';
