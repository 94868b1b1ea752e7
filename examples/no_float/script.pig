-- Floating numbers are left out.
a = LOAD 'a' AS (x:double);
