-- Each visit to a page that is known, with what is known of it.
visits = LOAD 'visits' AS (reader:chararray, address:chararray, second:int, size:int);
pages = LOAD 'pages' AS (address:chararray, topic:chararray, place:int);
both = JOIN visits BY address, pages BY address;
known = FOREACH both GENERATE reader, visits::address, topic, place, size;
STORE known INTO 'out';
