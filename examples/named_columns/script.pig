-- AS names the columns that FLATTEN makes. An ASSERT that each row meets changes nothing, nor does an empty statement.
a = LOAD 'a' AS (k:int, t:(x:int, y:chararray));
f = FOREACH a GENERATE k, FLATTEN(t) AS (n, s);
ASSERT f BY k > 0, 'keys are positive';;
g = FILTER f BY n >= 2 AND ENDSWITH(s, 'o');
o = ORDER g BY n ASC;
STORE o INTO 'o';
