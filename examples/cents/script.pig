-- Money with a point is read as text and made cents: what stands before the point, and the two digits behind it. In other forms it is null.
sales = LOAD 'shop' AS (what:chararray, paid:chararray);
parts = FOREACH sales GENERATE what, paid, INDEXOF(paid, '.') AS dot;
cents = FOREACH parts GENERATE what, (dot < 0 ? (long) paid * 100
    : (SIZE(paid) == dot + 3 AND INDEXOF(paid, '-') < 0
    ? (long) SUBSTRING(paid, 0, dot) * 100 + (long) SUBSTRING(paid, dot + 1, dot + 3) : (long) null)) AS cents;
STORE cents INTO 'cents';
