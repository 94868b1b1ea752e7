-- The longest time between two visits of a user: for each visit the nearest later one, by a JOIN of the log with itself.
log = LOAD 'log' AS (user:chararray, page:chararray, time:chararray, at:long);
a = FOREACH log GENERATE user, at;
b = FOREACH log GENERATE user, at;
pairs = JOIN a BY user, b BY user;
later = FILTER pairs BY b::at > a::at;
waits = FOREACH later GENERATE a::user AS user, a::at AS at, b::at - a::at AS wait;
nexts = GROUP waits BY (user, at);
next = FOREACH nexts GENERATE group.user AS user, MIN(waits.wait) AS wait;
by_user = GROUP next BY user;
gaps = FOREACH by_user GENERATE group, MAX(next.wait);
STORE gaps INTO 'gaps';
