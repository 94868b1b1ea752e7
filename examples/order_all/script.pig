-- ORDER BY * sorts by all fields in turn.
a = LOAD 'a' AS (x:int, y:int);
o = ORDER a BY * DESC;
STORE o INTO 'o';
