-- A field that its type cannot read is null. IS NULL asks for it; an operator on a null gives null.
a = LOAD 'a' AS (s:chararray, n:int);
c = FOREACH a GENERATE s, (int) s, n + 1, n IS NULL, (chararray) n;
STORE c INTO 'c';
