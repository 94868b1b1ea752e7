-- Several keys make `group` a tuple, whose fields keep their names.
sales = LOAD 'sales' AS (who:chararray, what:chararray, paid:int);
g = GROUP sales BY (what, paid > 2);
c = FOREACH g GENERATE group.what, group.$1, COUNT(sales);
STORE c INTO 'c';
