-- AND binds more than OR. A row is kept where its condition is true, and dropped where it is false or null.
a = LOAD 'a' AS (x:int, y:int);
f = FILTER a BY x <= 1 OR y == 2 AND x != 3;
c = FOREACH f GENERATE x, -x, x * 10L, (y == 2 ? true : null);
STORE c INTO 'c';
