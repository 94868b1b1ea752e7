-- DISTINCT keeps each row once.
sales = LOAD 'sales' AS (who:chararray, what:chararray, paid:int);
what = FOREACH sales GENERATE what;
kinds = DISTINCT what;
STORE kinds INTO 'kinds';
