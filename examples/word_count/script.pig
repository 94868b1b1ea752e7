-- The words of a text, the most frequent first.
a = LOAD 'text' AS (line:chararray);
w = FOREACH a GENERATE FLATTEN(TOKENIZE(line)) AS word;
g = GROUP w BY word PARALLEL 2;
c = FOREACH g GENERATE group AS word, COUNT(w) AS n;
o = ORDER c BY n DESC, word;
STORE o INTO 'out';
