-- Money goes from one account to another: both balances change, or neither does.
CREATE TABLE accounts (
  id      INTEGER PRIMARY KEY,
  owner   VARCHAR(20) NOT NULL,
  balance NUMERIC(9,2) DEFAULT 0 NOT NULL CHECK (balance >= 0)
);

CREATE MODULE bank
  PROCEDURE transfer (IN payer INTEGER, IN payee INTEGER, IN amount NUMERIC(9,2), OUT outcome VARCHAR(40))
    BEGIN ATOMIC
      DECLARE UNDO HANDLER FOR SQLSTATE '23000' SET outcome = 'refused: balance too low';
      DECLARE UNDO HANDLER FOR NOT FOUND SET outcome = 'refused: unknown account';
      UPDATE accounts SET balance = balance + amount WHERE id = payee;
      UPDATE accounts SET balance = balance - amount WHERE id = payer;
      SET outcome = 'done';
    END;
END MODULE
