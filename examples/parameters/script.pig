-- A given value stands before a default, and a declared one before both.
%default n 2
%declare d 'out'
a = LOAD 'in' AS (x:int);
f = FILTER a BY x > $n;
STORE f INTO '${d}';
