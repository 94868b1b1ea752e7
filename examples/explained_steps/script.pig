-- Nested steps are numbered from @0; a step's condition and keys are those of the rows of its bag.
v = LOAD 'visits' AS (user:chararray, url:chararray, time:int);
g = GROUP v BY user;
n = FOREACH g {
    late = FILTER v BY time > 12;
    each = DISTINCT late;
    first = ORDER each BY time DESC, url;
    top = LIMIT first 2;
    pages = v.url;
    GENERATE group, COUNT(top), pages, FLATTEN(top);
};
STORE n INTO 'out';
