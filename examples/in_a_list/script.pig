-- IN asks whether a value is one of several; of a null it is null. NOT stands before the whole.
sales = LOAD 'sales' AS (who:chararray, what:chararray, paid:int);
c = FOREACH sales GENERATE who, paid IN (2, 3), NOT what IN ('tea', 'cake');
STORE c INTO 'c';
