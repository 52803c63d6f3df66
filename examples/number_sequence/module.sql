-- Numbers without gaps: a sequence is a row of a table, so an ATOMIC block that fails gives its number back.
CREATE TABLE sequence (
  name VARCHAR(10) PRIMARY KEY,
  last INTEGER NOT NULL,
  most INTEGER NOT NULL,
  CHECK (last <= most)
);
CREATE TABLE invoice (
  no     VARCHAR(8) PRIMARY KEY,
  amount NUMERIC(7,2) NOT NULL CHECK (amount > 0)
);

CREATE MODULE numbers
  PROCEDURE next_number (IN wanted VARCHAR(10), OUT given INTEGER)
    BEGIN
      DECLARE EXIT HANDLER FOR NOT FOUND
        SIGNAL SQLSTATE '45300' SET MESSAGE_TEXT = 'no sequence ' || wanted;
      DECLARE EXIT HANDLER FOR SQLSTATE '23000'
        SIGNAL SQLSTATE '45301' SET MESSAGE_TEXT = 'all numbers of ' || wanted || ' are used';
      UPDATE sequence SET last = last + 1 WHERE name = wanted;
      SELECT last INTO given FROM sequence WHERE name = wanted;
    END;

  PROCEDURE write_invoice (IN amount NUMERIC(7,2), OUT no VARCHAR(8))
    BEGIN ATOMIC
      DECLARE given INTEGER;
      DECLARE digits VARCHAR(5);
      CALL next_number('invoice', given);
      SET digits = CAST(given AS VARCHAR(5));
      SET no = 'RE-' || SUBSTRING('00000' FROM CHAR_LENGTH(digits) + 1) || digits;
      INSERT INTO invoice VALUES (no, amount);
    END;
END MODULE
