-- An input that the gate makes, and an output whose parents are missing, or are no folder.
a = LOAD 'odd' AS (k:int);
STORE a INTO 'kept/deep/out';
