-- A LIMIT on a relation without an order keeps some rows, the same ones in each use; where there are fewer it keeps all.
a = LOAD 'a' AS (x:int);
l = LIMIT a 5;
STORE l INTO 'p';
STORE l INTO 'q';
