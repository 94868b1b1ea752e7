-- The visits, the largest first; of equal ones by the reader, and then by the whole row.
visits = LOAD 'visits' AS (reader:chararray, address:chararray, second:int, size:int);
ranking = ORDER visits BY size DESC, reader;
STORE ranking INTO 'out';
