-- LEFT keeps each row of the first input, with nulls where it has no partner.
a = LOAD 'a' AS (k:int, v:chararray);
b = LOAD 'b' AS (k:int, v:chararray);
j = JOIN a BY k LEFT, b BY k;
STORE j INTO 'j';
