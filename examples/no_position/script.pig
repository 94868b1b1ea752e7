-- The fields are $0 and $1.
a = LOAD 'a' AS (x:int, s:chararray);
b = FOREACH a GENERATE $2;
