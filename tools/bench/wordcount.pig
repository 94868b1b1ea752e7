-- How often each word stands in the text.
text = LOAD 'text' AS (line:chararray);
words = FOREACH text GENERATE FLATTEN(TOKENIZE(line)) AS word;
by_word = GROUP words BY word;
counts = FOREACH by_word GENERATE group, COUNT(words);
STORE counts INTO 'out';
