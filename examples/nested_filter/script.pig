-- A nested FILTER sees the fields of its bag, and a nested DISTINCT keeps each tuple once.
sales = LOAD 'sales' AS (who:chararray, what:chararray, paid:int);
g = GROUP sales BY who;
r = FOREACH g {
    dear = FILTER sales BY paid > 2;
    what = sales.what;
    kinds = DISTINCT what;
    GENERATE group, COUNT(dear), COUNT(kinds);
};
STORE r INTO 'r';
