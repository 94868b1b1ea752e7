-- There is nothing at the path `b`.
b = LOAD 'b' AS (x:int);
STORE b INTO 'c';
