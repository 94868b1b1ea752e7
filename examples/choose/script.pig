-- A choice takes one of two values; of a null condition it is null.
sales = LOAD 'sales' AS (who:chararray, what:chararray, paid:int);
c = FOREACH sales GENERATE who, (paid > 2 ? 'much' : 'little');
STORE c INTO 'c';
