-- Double-entry bookkeeping: both lines of an entry are posted in an ATOMIC block, or neither is.
CREATE TABLE account (
  no      INTEGER PRIMARY KEY,
  title   VARCHAR(20) NOT NULL,
  balance NUMERIC(11,2) DEFAULT 0 NOT NULL
);
CREATE TABLE posting (
  entry   INTEGER,
  line    SMALLINT,
  account INTEGER NOT NULL,
  amount  NUMERIC(11,2) NOT NULL CHECK (amount <> 0),
  PRIMARY KEY (entry, line)
);

CREATE MODULE ledger
  FUNCTION next_entry () RETURNS INTEGER
    RETURN COALESCE((SELECT MAX(entry) FROM posting), 0) + 1;

  PROCEDURE post_line (IN entry_no INTEGER, IN line_no SMALLINT, IN account_no INTEGER, IN amount NUMERIC(11,2))
    BEGIN
      DECLARE EXIT HANDLER FOR NOT FOUND
        SIGNAL SQLSTATE '45010' SET MESSAGE_TEXT = 'no account ' || CAST(account_no AS VARCHAR(11));
      UPDATE account SET balance = balance + amount WHERE no = account_no;
      INSERT INTO posting VALUES (entry_no, line_no, account_no, amount);
    END;

  -- A debit is positive, and a credit negative.
  PROCEDURE book (IN debited INTEGER, IN credited INTEGER, IN amount NUMERIC(11,2), OUT entry_no INTEGER)
    BEGIN ATOMIC
      SET entry_no = next_entry();
      CALL post_line(entry_no, 1, debited, amount);
      CALL post_line(entry_no, 2, credited, -amount);
    END;

  PROCEDURE reverse_entry (IN old_entry INTEGER, OUT entry_no INTEGER)
    BEGIN ATOMIC
      SET entry_no = next_entry();
      FOR old AS SELECT line, account, amount FROM posting WHERE entry = old_entry DO
        CALL post_line(entry_no, old.line, old.account, -old.amount);
      END FOR;
    END;

  PROCEDURE trial_balance (OUT total NUMERIC(11,2))
    SELECT SUM(balance) INTO total FROM account;
END MODULE
