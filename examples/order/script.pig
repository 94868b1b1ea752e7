-- ORDER sorts by fields, each ASC or DESC. Null is the least; equal keys go by the whole row.
a = LOAD 'a' AS (k:int, v:chararray);
o = ORDER a BY k DESC;
STORE o INTO 'o';
