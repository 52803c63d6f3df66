INSERT INTO account (no, title) VALUES (1000, 'cash'), (2000, 'capital'), (3000, 'rent');
CALL book(1000, 2000, 5000, ?);
CALL book(3000, 1000, 1200.50, ?);
CALL book(3000, 9999, 10, ?);   -- the second line finds no account, and the first is undone
CALL book(3000, 1000, 0, ?);    -- a line of nothing breaks the CHECK
SELECT * FROM account;
CALL reverse_entry(2, ?);
SELECT * FROM posting;
CALL trial_balance(?);
