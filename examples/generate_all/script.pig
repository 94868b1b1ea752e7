-- An asterisk stands for all fields of the row.
marks = LOAD 'marks' AS (name:chararray, mark:int);
more = FOREACH marks GENERATE *, mark > 4 AS good;
STORE more INTO 'more';
