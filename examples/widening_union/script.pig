-- A column that is int in one relation and long in another becomes long.
a = LOAD 'a' AS (x:int);
b = LOAD 'b' AS (x:long);
u = UNION a, b;
o = ORDER u BY x;
STORE o INTO 'o';
