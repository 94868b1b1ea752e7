-- How often each reader came, and the bytes that they took.
visits = LOAD 'visits' AS (reader:chararray, address:chararray, second:int, size:int);
by_reader = GROUP visits BY reader;
taken = FOREACH by_reader GENERATE group, COUNT(visits), SUM(visits.size);
STORE taken INTO 'out';
