-- What happens before the rows meet, and where a JOIN shuffles them.
a = LOAD 'a' AS (k:int, v:int);
b = LOAD 'b' AS (k:int, w:int);
j = JOIN a BY k LEFT, b BY k;
f = FILTER j BY v > 1 AND w > 2;
STORE f INTO 'o';
