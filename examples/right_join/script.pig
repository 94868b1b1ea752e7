-- RIGHT keeps each row of the second input, with nulls where it has no partner.
a = LOAD 'a' AS (k:int, v:chararray);
b = LOAD 'b' AS (k:int, w:chararray);
j = JOIN a BY k RIGHT, b BY k;
STORE j INTO 'j';
