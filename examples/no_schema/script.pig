-- The relations of a UNION have equally many fields of like types.
a = LOAD 'a' AS (x:int, s:chararray);
b = FOREACH a GENERATE s, x;
u = UNION a, b;
