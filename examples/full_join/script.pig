-- FULL keeps the rows of both inputs.
a = LOAD 'a' AS (k:int, v:chararray);
b = LOAD 'b' AS (k:int, v:chararray);
j = JOIN a BY k FULL OUTER, b BY k;
STORE j INTO 'j';
