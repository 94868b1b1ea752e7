-- A log of several files, one for each day: how often each user came, the longest stay, and the pages in the order of the visits.
log = LOAD 'log' AS (user:chararray, page:chararray, time:long, stay:long);
real_visits = FILTER log BY user IS NOT NULL;
by_user = GROUP real_visits BY user;
sessions = FOREACH by_user {
    in_turn = ORDER real_visits BY time;
    pages = in_turn.page;
    GENERATE group, COUNT(real_visits), MAX(real_visits.stay), pages;
};
STORE sessions INTO 'sessions';
