-- TOTUPLE and TOBAG make a tuple and a bag of values.
a = LOAD 'a' AS (x:int, y:int);
c = FOREACH a GENERATE TOTUPLE(x, y), TOBAG(y, x), SIZE(TOBAG(x, y, x));
STORE c INTO 'c';
