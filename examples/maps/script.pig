-- A map is looked up by key. Where a key is missing the value is null; a value without a type is bytes.
a = LOAD 'a' AS (m:map[]);
c = FOREACH a GENERATE (int) m#'a' + 1, m#'zz', (m#'b' == 'x' ? 'yes' : 'no');
STORE c INTO 'c';
