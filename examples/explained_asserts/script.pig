-- Two ASSERTs with one condition and one message on the same rows become one; one with another message stays.
a = LOAD 'i' AS (x:int);
ASSERT a BY x > 0, 'positive';
b = LOAD 'i' AS (x:int);
ASSERT b BY x > 0, 'positive';
c = LOAD 'i' AS (x:int);
ASSERT c BY x > 0, 'above zero';
STORE a INTO 'first';
STORE b INTO 'second';
STORE c INTO 'third';
