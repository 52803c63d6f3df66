INSERT INTO coach VALUES (1, 10), (2, 3);
CALL reserve_two('Ada', 1, 4, 2, 2, ?);
CALL reserve_two('Bob', 1, 6, 2, 2, ?);   -- coach 2 has one seat left
CALL reserve_two('Cy', 1, 1, 7, 1, ?);    -- there is no coach 7
CALL reserve_two('Ada', 1, 1, 2, 1, ?);   -- Ada has seats there already
SELECT * FROM coach;
SELECT * FROM booking;
CALL cancel('Ada', ?);
SELECT * FROM coach;
