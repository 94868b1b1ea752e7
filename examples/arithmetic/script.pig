-- Ints wrap at 32 bits; division goes towards zero, a remainder has the sign of the dividend, and by zero is null.
a = LOAD 'a' AS (a:int, b:int);
c = FOREACH a GENERATE a + 1, b / 2, b % 2, b / 0, (long) a + 1;
STORE c INTO 'c';
