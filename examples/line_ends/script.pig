-- A CR before a line end is dropped, missing fields are null, and a last line needs no line end.
a = LOAD 'a' AS (x:int, y:int);
STORE a INTO 'b';
