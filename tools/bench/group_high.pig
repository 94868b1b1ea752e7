-- How often each address was visited, when first, and the most bytes that one visit took.
visits = LOAD 'visits' AS (reader:chararray, address:chararray, second:int, size:int);
by_address = GROUP visits BY address;
seen = FOREACH by_address GENERATE group, COUNT(visits), MIN(visits.second), MAX(visits.size);
STORE seen INTO 'out';
