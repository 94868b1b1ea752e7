-- The visits that took more than 1,000 bytes.
visits = LOAD 'visits' AS (reader:chararray, address:chararray, second:int, size:int);
large = FILTER visits BY size > 1000;
STORE large INTO 'out';
