-- A script does not read what it stores.
a = LOAD 'a' AS (x:int, s:chararray);
STORE a INTO 'a/out';
