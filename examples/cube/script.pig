-- CUBE groups by each set of the dimensions: one that is not in the set is null, and one that was null is `unknown`.
sales = LOAD 'sales' AS (what:chararray, year:chararray, paid:int);
by_sets = CUBE sales BY CUBE(what, year);
sums = FOREACH by_sets GENERATE group, SUM(cube.paid);
STORE sums INTO 'sums';
