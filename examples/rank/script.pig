-- RANK puts in front of each row one more than the number of rows whose keys stand before its own.
a = LOAD 'a' AS (k:int, v:chararray);
r = RANK a BY k DESC;
STORE r INTO 'r';
