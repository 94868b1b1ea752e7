-- Of four columns three are needed: the key, one that is summed up, and the first, since COUNT looks whether it is there.
t = LOAD 't' AS (a:chararray, b:int, c:int, d:int);
g = GROUP t BY b;
r = FOREACH g GENERATE group, COUNT(t), SUM(t.d);
STORE r INTO 'o';
