-- Who visited what, however often.
visits = LOAD 'visits' AS (reader:chararray, address:chararray, second:int, size:int);
pairs = FOREACH visits GENERATE reader, address;
once = DISTINCT pairs;
STORE once INTO 'out';
