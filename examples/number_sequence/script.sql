INSERT INTO sequence VALUES ('invoice', 0, 3);
CALL write_invoice(19.90, ?);
CALL write_invoice(-5, ?);        -- breaks the CHECK, and number 2 is given back
CALL write_invoice(7, ?);
CALL next_number('ticket', ?);
CALL next_number('invoice', ?);
CALL next_number('invoice', ?);   -- 3 was the last
SELECT * FROM invoice;
SELECT * FROM sequence;
