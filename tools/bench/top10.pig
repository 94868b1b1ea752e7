-- The ten largest visits, in order.
visits = LOAD 'visits' AS (reader:chararray, address:chararray, second:int, size:int);
ranking = ORDER visits BY size DESC, reader;
top = LIMIT ranking 10;
STORE top INTO 'out';
