-- No field has the name `y`.
a = LOAD 'a' AS (x:int, s:chararray);
b = FILTER a BY y == 1;
