-- A folder is an input of one piece a file, in the order of their names; a name that begins with `_` or `.` is no piece.
a = LOAD 'lists' AS (word:chararray);
STORE a INTO 'kept';
