-- A text is not added to an int.
a = LOAD 'a' AS (x:int, s:chararray);
b = FOREACH a GENERATE x + s;
