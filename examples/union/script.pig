-- UNION puts relations together and keeps equal rows.
a = LOAD 'a' AS (x:int);
b = LOAD 'b' AS (x:int);
u = UNION a, b, a;
STORE u INTO 'u';
