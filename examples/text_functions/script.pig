-- Functions on texts count characters, from 0.
a = LOAD 'a' AS (s:chararray, t:chararray, n:int);
c = FOREACH a GENERATE SIZE(s), SUBSTRING(s, 1, 3), INDEXOF(t, 'na'), ABS(n), STARTSWITH(t, 'ba'), CONCAT(s, t);
STORE c INTO 'c';
