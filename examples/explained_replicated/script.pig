-- The second input is copied first; then each part of the first one is joined with the copies.
a = LOAD 'a' AS (k:int, v:chararray);
b = LOAD 'b' AS (k:int, v:chararray);
j = JOIN a BY k LEFT, b BY k USING 'replicated';
STORE j INTO 'j';
