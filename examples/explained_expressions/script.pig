-- Each form of expression, and a text with a quote and a backslash.
a = LOAD 'a' AS (i:int, l:long, t:chararray, y:bytearray, m:map[int], p:tuple(q:int, r:chararray), b:bag{(x:int, s:chararray)});
e = FOREACH a GENERATE i + 1 - 2, l * 2L, i % 3, -i, (i == 1 ? t : 'it\'s a \\'), (int) t, (boolean) y, m#'k', p.q, p.(r, q), b.s, CONCAT(t, 'x'), true, null, FLATTEN(b);
f = FILTER e BY $0 != 1 AND NOT ($1 <= 2L OR $1 >= 9L) AND ($3 IS NULL OR $4 IS NOT NULL);
STORE f INTO 'out';
