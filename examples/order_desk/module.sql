-- A shop takes orders while there is stock, makes bills, and takes orders back.
CREATE TABLE stock (
  product VARCHAR(20) PRIMARY KEY,
  on_hand INTEGER NOT NULL CHECK (on_hand >= 0),
  price   NUMERIC(7,2) NOT NULL
);
CREATE TABLE orders (
  id       INTEGER,
  product  VARCHAR(20),
  quantity INTEGER NOT NULL CHECK (quantity > 0),
  PRIMARY KEY (id, product)
);

CREATE MODULE shop
  -- Ten percent from 100 on.
  FUNCTION discount (amount NUMERIC(9,2)) RETURNS NUMERIC(9,2) DETERMINISTIC
    BEGIN
      IF amount >= 100 THEN RETURN amount * 0.1; END IF;
      RETURN 0;
    END;

  PROCEDURE place_order (IN order_id INTEGER, IN wanted VARCHAR(20), IN pieces INTEGER, OUT message VARCHAR(60))
    BEGIN ATOMIC
      DECLARE available INTEGER;
      DECLARE too_few CONDITION;
      DECLARE CONTINUE HANDLER FOR NOT FOUND SET available = 0;
      DECLARE UNDO HANDLER FOR too_few GET DIAGNOSTICS EXCEPTION 1 message = MESSAGE_TEXT;
      DECLARE UNDO HANDLER FOR SQLEXCEPTION
        BEGIN
          DECLARE refused_by VARCHAR(20);
          GET DIAGNOSTICS EXCEPTION 1 message = MESSAGE_TEXT, refused_by = TABLE_NAME;
          SET message = message || ' in ' || refused_by;
        END;
      INSERT INTO orders VALUES (order_id, wanted, pieces);
      SELECT on_hand INTO available FROM stock WHERE product = wanted;
      IF available < pieces THEN
        SIGNAL too_few SET MESSAGE_TEXT = 'only ' || CAST(available AS VARCHAR(9)) || ' left';
      END IF;
      UPDATE stock SET on_hand = on_hand - pieces WHERE product = wanted;
      SET message = 'ordered';
    END;

  PROCEDURE bill (IN order_id INTEGER, OUT lines INTEGER, OUT due NUMERIC(9,2))
    BEGIN
      SET lines = 0;
      SET due = 0;
      FOR line AS SELECT product, quantity FROM orders WHERE id = order_id DO
        SET lines = lines + 1;
        SET due = due + line.quantity * (SELECT price FROM stock WHERE product = line.product);
      END FOR;
      SET due = due - discount(due);
    END;

  PROCEDURE cancel (IN order_id INTEGER, OUT returned INTEGER)
    BEGIN
      DECLARE ordered VARCHAR(20);
      DECLARE pieces INTEGER;
      DECLARE at_end INTEGER DEFAULT 0;
      DECLARE order_lines CURSOR FOR SELECT product, quantity FROM orders WHERE id = order_id FOR UPDATE;
      DECLARE CONTINUE HANDLER FOR NOT FOUND SET at_end = 1;
      SET returned = 0;
      OPEN order_lines;
      reading: LOOP
        FETCH order_lines INTO ordered, pieces;
        IF at_end = 1 THEN LEAVE reading; END IF;
        UPDATE stock SET on_hand = on_hand + pieces WHERE product = ordered;
        DELETE FROM orders WHERE CURRENT OF order_lines;
        SET returned = returned + pieces;
      END LOOP reading;
      CLOSE order_lines;
    END;
END MODULE
