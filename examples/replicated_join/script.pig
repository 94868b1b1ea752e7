-- USING 'replicated' leaves the rows of a JOIN as they are. It stands on inner and LEFT JOINs alone.
a = LOAD 'a' AS (k:int, v:chararray);
b = LOAD 'b' AS (k:int, v:chararray);
j = JOIN a BY k LEFT, b BY k USING 'replicated';
STORE j INTO 'j';
