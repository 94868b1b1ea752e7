-- This name has no value; its place is told in bytes from the start.
a = LOAD 'in' AS (x:int);
f = FILTER a BY x > $least;
STORE f INTO 'out';
