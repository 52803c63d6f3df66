INSERT INTO accounts VALUES (1, 'Ada', 100), (2, 'Blaise', 20.50);
CALL transfer(1, 2, 30.25, ?);
SELECT * FROM accounts;
CALL transfer(2, 1, 500, ?);   -- the second UPDATE breaks the CHECK, and the first is undone
CALL transfer(9, 1, 5, ?);     -- the second UPDATE finds no row, and the first is undone
SELECT owner, balance FROM accounts;
