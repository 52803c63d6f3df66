-- Prices by CASE: as an expression over ranges, and as a statement that raises a condition where no case is met.
CREATE MODULE pricing
  FUNCTION discount (pieces INTEGER) RETURNS NUMERIC(3,2)
    RETURN CASE
      WHEN pieces >= 100 THEN 0.20
      WHEN pieces >= 10 THEN 0.05
      ELSE 0
    END;

  PROCEDURE shipping (IN country CHAR(2), OUT cost NUMERIC(7,2))
    CASE country
      WHEN 'DE' THEN SET cost = 4.90;
      WHEN 'FR' THEN SET cost = 9.90;
    END CASE;

  PROCEDURE quote (
    IN unit_price NUMERIC(7,2), IN pieces INTEGER, IN country CHAR(2),
    OUT total NUMERIC(9,2), OUT note VARCHAR(30)
  )
    BEGIN
      DECLARE shipped NUMERIC(7,2) DEFAULT 0;
      DECLARE CONTINUE HANDLER FOR SQLSTATE '20000'
        SET note = 'no shipping to ' || COALESCE(country, 'nowhere');
      CALL shipping(country, shipped);
      SET total = unit_price * pieces * (1 - discount(pieces)) + shipped;
    END;
END MODULE
