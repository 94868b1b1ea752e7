-- No statement before gives the alias `nope`.
a = LOAD 'a' AS (x:int, s:chararray);
b = FILTER nope BY $0 == 1;
