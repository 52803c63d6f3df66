INSERT INTO queue (no, amount, parts) VALUES (1, 12, 3), (2, 7, 0), (3, 20, 5);
CALL work(2, ?);
SELECT * FROM queue;
CALL work(9, ?);
CALL work(9, ?);   -- the third try of job 2 is the last
SELECT * FROM done;
SELECT * FROM given_up;
SELECT COUNT(*) FROM queue;
