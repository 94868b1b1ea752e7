-- A field without a type is bytes. A cast reads them as the text of its type.
a = LOAD 'a' AS (b, t, s, m);
c = FOREACH a GENERATE (boolean) b, (tuple(x:int, y:int)) t, (bag{(n:int)}) s, (map[int]) m, (bytearray) b;
STORE c INTO 'c';
