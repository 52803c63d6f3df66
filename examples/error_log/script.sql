INSERT INTO job (id, total, parts) VALUES (1, 10, 4), (2, 10, 0), (3, 2000000000, 1), (4, 7, 0);
CALL compute(1);
CALL compute(2);
CALL compute_all(?, ?);
SELECT * FROM error_log;
SELECT id, share, failures FROM job;
