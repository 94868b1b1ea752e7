-- The three most active users of a log: a LIMIT directly on an ORDER is the first rows of it.
log = LOAD 'log' AS (user:chararray, page:chararray);
by_user = GROUP log BY user;
visits = FOREACH by_user GENERATE group AS user, COUNT(log) AS visits;
ranking = ORDER visits BY visits DESC, user;
top = LIMIT ranking 3;
STORE top INTO 'top';
