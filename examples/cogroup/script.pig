-- COGROUP gives for each key the bag of its rows in each input. Null keys group apart for each input.
a = LOAD 'a' AS (k:int, v:chararray);
b = LOAD 'b' AS (k:int, v:chararray);
g = COGROUP a BY k, b BY k;
STORE g INTO 'g';
