-- What an ATOMIC block did is undone, and the handler of the block around it notes that it was tried.
CREATE TABLE price (
  item   VARCHAR(10) PRIMARY KEY,
  amount NUMERIC(7,2) NOT NULL CHECK (amount > 0)
);
CREATE TABLE audit (
  no   INTEGER PRIMARY KEY,
  what VARCHAR(60) NOT NULL
);

CREATE MODULE prices
  PROCEDURE note (IN what VARCHAR(60))
    INSERT INTO audit VALUES (COALESCE((SELECT MAX(no) FROM audit), 0) + 1, what);

  PROCEDURE cut_all (IN cut NUMERIC(7,2))
    BEGIN
      DECLARE EXIT HANDLER FOR SQLEXCEPTION
        BEGIN
          DECLARE state CHAR(5);
          GET DIAGNOSTICS EXCEPTION 1 state = RETURNED_SQLSTATE;
          CALL note('cut refused: ' || state);
          RESIGNAL;
        END;
      BEGIN ATOMIC
        FOR p AS prices CURSOR FOR SELECT item, amount FROM price DO
          CALL note(p.item || ' was ' || CAST(p.amount AS VARCHAR(10)));
          UPDATE price SET amount = amount - cut WHERE CURRENT OF prices;
        END FOR;
      END;
    END;
END MODULE
