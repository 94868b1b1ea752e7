-- SPLIT filters into several relations; OTHERWISE has the rows for which each condition is false. A null goes nowhere.
a = LOAD 'a' AS (x:int);
SPLIT a INTO b IF x > 2, c IF x < 2, d OTHERWISE;
STORE b INTO 'b';
STORE c INTO 'c';
STORE d INTO 'd';
