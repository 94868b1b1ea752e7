-- How many visits each user made on each day: GROUP by both, and FLATTEN takes the key apart again.
log = LOAD 'log' AS (user:chararray, page:chararray, time:chararray, at:long);
days = FOREACH log GENERATE user, SUBSTRING(time, 0, 10) AS day;
g = GROUP days BY (user, day);
n = FOREACH g GENERATE FLATTEN(group), COUNT(days);
STORE n INTO 'visits';
