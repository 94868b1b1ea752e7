-- FLATTEN of a tuple puts its fields in its place, named by the tuple: `at::x`.
a = LOAD 'a' AS (k:int, at:(x:int, y:int));
f = FOREACH a GENERATE k, FLATTEN(at);
s = FOREACH f GENERATE k, at::x + y;
STORE s INTO 's';
