-- GROUP gives a row for each key: the key as `group`, and the bag of its rows.
sales = LOAD 'sales' AS (who:chararray, what:chararray, paid:int);
by_who = GROUP sales BY who;
counts = FOREACH by_who GENERATE group, COUNT(sales), SUM(sales.paid);
STORE counts INTO 'counts';
