-- Nested types are read from their texts; what is not of its type's form is null, and of equal keys the last counts.
a = LOAD 'a' AS (b:bag{t:(x:int)}, m:map[int], t:tuple(a:int, b:int));
STORE a INTO 'b';
