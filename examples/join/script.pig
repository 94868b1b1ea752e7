-- JOIN puts the rows of equal keys side by side; a null key equals no other. Fields are named by alias, `a::v`.
a = LOAD 'a' AS (k:int, v:chararray);
b = LOAD 'b' AS (k:int, v:chararray);
j = JOIN a BY k, b BY k;
n = FOREACH j GENERATE a::k, a::v, b::v;
STORE n INTO 'n';
