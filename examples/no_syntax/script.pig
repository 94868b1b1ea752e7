-- The second statement is off the grammar.
a = LOAD 'a' AS (x:int, s:chararray);
x = ;
