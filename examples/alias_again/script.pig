-- An alias may be given again; a use means the latest statement before it.
a = LOAD 'a' AS (x:int);
a = FILTER a BY x > 1;
a = FOREACH a GENERATE x * 10 AS x;
STORE a INTO 'b';
