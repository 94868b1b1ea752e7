-- With DENSE no rank is left out. The rank's field is named after the relation: of `a` it is `rank_a`, a long.
a = LOAD 'a' AS (k:int, v:chararray);
r = RANK a BY k DESC DENSE;
first_two = FILTER r BY rank_a <= 2L;
STORE r INTO 'r';
STORE first_two INTO 'first_two';
