-- PigStorage reads and stores with a delimiter of one character; without it the tab.
urls = LOAD 'urls' USING PigStorage(',') AS (url, category:chararray, rank_of:int);
good = FILTER urls BY rank_of > 2;
groups = GROUP good BY category;
big = FILTER groups BY COUNT(good) > 1;
o = FOREACH big GENERATE group, SUM(good.rank_of);
STORE o INTO 'o' USING PigStorage(';');
