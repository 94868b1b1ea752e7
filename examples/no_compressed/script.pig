-- Compressed files are left out.
a = LOAD 'a.gz' AS (x:int);
