-- A nested block works on the bags of a row: here the first of each group, and all of it in an order of its own.
a = LOAD 'a' AS (k:chararray, n:int, s:chararray);
g = GROUP a BY k;
r = FOREACH g {
    o = ORDER a BY n;
    t = LIMIT o 1;
    GENERATE group, t, o.(n, s);
};
STORE r INTO 'r';
