-- FILTER keeps the rows whose condition is true; a null is not true, so the row without a price goes.
sales = LOAD 'sales' AS (who:chararray, what:chararray, paid:int);
dear = FILTER sales BY paid >= 3 AND what != 'cake';
STORE dear INTO 'dear';
