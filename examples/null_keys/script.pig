-- Rows without a key: GROUP keeps them together, COGROUP apart for each input, and JOIN drops or fills them.
a = LOAD 'a' AS (k:int, v:chararray);
b = LOAD 'b' AS (k:int, v:chararray);
g = GROUP a BY k;
c = COGROUP a BY k, b BY k;
j = JOIN a BY k, b BY k;
f = JOIN a BY k FULL, b BY k;
STORE g INTO 'grouped';
STORE c INTO 'cogrouped';
STORE j INTO 'joined';
STORE f INTO 'full';
