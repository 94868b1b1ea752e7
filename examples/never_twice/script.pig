-- The pages that no user saw twice: a COGROUP with those that one did, of which nothing may be there.
log = LOAD 'log' AS (user:chararray, page:chararray, time:chararray, at:long);
g = GROUP log BY (user, page);
n = FOREACH g GENERATE group.page AS page, COUNT(log) AS n;
twice = FILTER n BY n > 1;
pages = COGROUP n BY page, twice BY page;
none = FILTER pages BY IsEmpty(twice);
once = FOREACH none GENERATE group;
STORE once INTO 'once';
