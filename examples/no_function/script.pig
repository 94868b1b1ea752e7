-- UPPER is no function of this profile.
a = LOAD 'a' AS (x:int, s:chararray);
b = FOREACH a GENERATE UPPER(s);
