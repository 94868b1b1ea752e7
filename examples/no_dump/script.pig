-- DUMP is left out by this profile.
a = LOAD 'a' AS (x:int, s:chararray);
DUMP a;
