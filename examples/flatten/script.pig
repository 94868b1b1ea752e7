-- FLATTEN of bags makes a row for each tuple, of two bags for each pair. An empty bag gives no row, a null bag nulls.
a = LOAD 'a' AS (k:int, a:{(x:int)}, b:{(y:int)});
f = FOREACH a GENERATE k, FLATTEN(a), FLATTEN(b);
STORE f INTO 'f';
