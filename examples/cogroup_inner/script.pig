-- INNER behind an input drops the keys that it has no row of.
a = LOAD 'a' AS (k:int, v:chararray);
b = LOAD 'b' AS (k:int, v:chararray);
g = COGROUP a BY k, b BY k INNER;
STORE g INTO 'g';
