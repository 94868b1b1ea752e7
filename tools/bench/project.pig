-- Who came in which hour, at which second of a minute, and a sum over the size.
visits = LOAD 'visits' AS (reader:chararray, address:chararray, second:int, size:int);
made = FOREACH visits GENERATE reader, second / 3600, second % 60, size * 8 - 1000;
STORE made INTO 'out';
