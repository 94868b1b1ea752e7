-- CASE takes the first branch whose value is equal, or whose condition is true. Without an ELSE the rest is null.
sales = LOAD 'sales' AS (who:chararray, paid:int);
c = FOREACH sales GENERATE who,
    CASE paid WHEN 1 THEN 'one' WHEN 2 THEN 'two' ELSE 'more' END,
    CASE WHEN paid > 4 THEN 'much' WHEN paid > 2 THEN 'some' END;
STORE c INTO 'c';
