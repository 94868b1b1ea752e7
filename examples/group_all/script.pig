-- GROUP ALL brings all rows together, and over no rows it gives no row.
sales = LOAD 'sales' AS (who:chararray, what:chararray, paid:int);
all_sales = GROUP sales ALL;
total = FOREACH all_sales GENERATE group, SUM(sales.paid), MIN(sales.who), MAX(sales.paid);
none = FILTER sales BY paid > 100;
all_none = GROUP none ALL;
STORE total INTO 'total';
STORE all_none INTO 'nothing';
