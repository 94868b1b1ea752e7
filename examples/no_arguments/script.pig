-- ABS takes one argument.
a = LOAD 'a' AS (x:int, s:chararray);
b = FOREACH a GENERATE ABS(x, x);
