-- The bag of a group holds whole rows; rows with a null key form one group.
a = LOAD 'a' AS (k:int, v:chararray);
g = GROUP a BY k;
STORE g INTO 'g';
