-- After the JOIN two fields fit the name `x`: `a::x` and `b::x`.
a = LOAD 'a' AS (x:int, s:chararray);
b = LOAD 'a' AS (x:int);
j = JOIN a BY x, b BY x;
f = FILTER j BY x > 0;
