-- A batch goes over its input with a cursor; a CONTINUE handler notes why a row can't be taken, and it goes on.
CREATE TABLE input (
  no     INTEGER PRIMARY KEY,
  amount VARCHAR(12),
  result CHAR(5)
);
CREATE TABLE payment (
  no     INTEGER PRIMARY KEY,
  amount NUMERIC(7,2) NOT NULL CHECK (amount > 0)
);

CREATE MODULE batch
  PROCEDURE import_all (OUT taken INTEGER, OUT refused INTEGER)
    BEGIN
      DECLARE row_no INTEGER;
      DECLARE written VARCHAR(12);
      DECLARE state CHAR(5);
      DECLARE at_end SMALLINT DEFAULT 0;
      DECLARE open_rows CURSOR FOR SELECT no, amount FROM input WHERE result IS NULL;
      DECLARE CONTINUE HANDLER FOR NOT FOUND SET at_end = 1;
      DECLARE CONTINUE HANDLER FOR SQLEXCEPTION GET DIAGNOSTICS EXCEPTION 1 state = RETURNED_SQLSTATE;
      SET taken = 0;
      SET refused = 0;
      OPEN open_rows;
      FETCH open_rows INTO row_no, written;
      WHILE at_end = 0 DO
        SET state = '00000';
        INSERT INTO payment VALUES (row_no, CAST(written AS NUMERIC(7,2)));
        UPDATE input SET result = state WHERE CURRENT OF open_rows;
        IF state = '00000' THEN
          SET taken = taken + 1;
        ELSE
          SET refused = refused + 1;
        END IF;
        FETCH open_rows INTO row_no, written;
      END WHILE;
      CLOSE open_rows;
    END;
END MODULE
