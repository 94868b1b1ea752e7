-- Not each row meets the ASSERT, so nothing is stored.
a = LOAD 'a' AS (x:int);
ASSERT a BY x > 0, 'positive';
STORE a INTO 'c';
