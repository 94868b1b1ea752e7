-- The second STORE goes into the folder that the first one makes.
a = LOAD 'a' AS (x:int, s:chararray);
STORE a INTO 'out';
STORE a INTO 'out/more';
