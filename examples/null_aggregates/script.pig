-- Aggregates leave nulls out: COUNT counts rows whose first field is none, COUNT_STAR all; the rest is null of nothing.
a = LOAD 'a' AS (k:chararray, x:int);
g = GROUP a BY k;
c = FOREACH g GENERATE group, COUNT(a.x), COUNT_STAR(a.x), SUM(a.x), MIN(a.x);
STORE c INTO 'c';
