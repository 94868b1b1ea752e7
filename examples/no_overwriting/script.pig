-- Something stands at the output already, so nothing is stored.
a = LOAD 'a' AS (x:int, s:chararray);
STORE a INTO 'there';
