log = LOAD 'log' AS (user:chararray, page:chararray);
by_page = GROUP log BY page;
visits = FOREACH by_page GENERATE group AS page, COUNT(log) AS visits;
ranking = ORDER visits BY visits DESC, page;
top = LIMIT ranking 2;
STORE top INTO 'top';
