-- An input that the gate makes: a folder with a piece that can't be read.
a = LOAD 'odd' AS (k:int);
b = FILTER a BY k > 4;
STORE b INTO 'kept';
