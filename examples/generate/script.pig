-- FOREACH makes a row of each row: fields by name or position, expressions, and names for them.
sales = LOAD 'sales' AS (who:chararray, what:chararray, paid:int);
twice = FOREACH sales GENERATE $1, who, paid * 2 AS twice;
few = FILTER twice BY twice < 6;
STORE few INTO 'few';
