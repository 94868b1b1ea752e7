-- A bag is no key.
a = LOAD 'a' AS (x:int, s:chararray);
g = GROUP a BY x;
h = GROUP g BY a;
