-- Orders with their lines: no line without its order, and no product that is deleted while it is on order.
CREATE TABLE product (
  name  VARCHAR(20) PRIMARY KEY,
  price NUMERIC(7,2) NOT NULL
);
CREATE TABLE orders (
  id       INTEGER PRIMARY KEY,
  customer VARCHAR(20) NOT NULL
);
CREATE TABLE order_line (
  id       INTEGER REFERENCES orders,
  line     INTEGER,
  product  VARCHAR(20) NOT NULL REFERENCES product (name) ON DELETE NO ACTION ON UPDATE NO ACTION,
  pieces   INTEGER NOT NULL CHECK (pieces > 0),
  replaces INTEGER,
  PRIMARY KEY (id, line),
  FOREIGN KEY (id, replaces) REFERENCES order_line
);

CREATE MODULE shop
  -- Adds a line, and says in the user's words why it can't.
  PROCEDURE add_line (IN order_id INTEGER, IN what VARCHAR(20), IN how_many INTEGER, IN instead_of INTEGER, OUT message VARCHAR(60))
    BEGIN
      DECLARE next_line INTEGER;
      DECLARE EXIT HANDLER FOR SQLSTATE '23000'
        BEGIN
          IF NOT EXISTS (SELECT * FROM orders WHERE id = order_id) THEN
            SET message = 'there is no order ' || CAST(order_id AS VARCHAR(9));
          ELSEIF NOT EXISTS (SELECT * FROM product WHERE name = what) THEN
            SET message = 'there is no product ' || what;
          ELSEIF how_many > 0 THEN
            SET message = 'there is no line ' || CAST(instead_of AS VARCHAR(9)) || ' to replace';
          ELSE
            SET message = 'how many ' || what || '?';
          END IF;
        END;
      SET next_line = COALESCE((SELECT MAX(line) FROM order_line WHERE id = order_id), 0) + 1;
      INSERT INTO order_line VALUES (order_id, next_line, what, how_many, instead_of);
      SET message = 'line ' || CAST(next_line AS VARCHAR(9));
    END;

  -- The message names the table that was to be changed.
  PROCEDURE drop_product (IN what VARCHAR(20), OUT message VARCHAR(60))
    BEGIN
      DECLARE changed VARCHAR(20);
      DECLARE EXIT HANDLER FOR SQLSTATE '23000'
        BEGIN
          GET STACKED DIAGNOSTICS EXCEPTION 1 message = MESSAGE_TEXT, changed = TABLE_NAME;
          SET message = message || ' at ' || changed || ': ' || what;
        END;
      DELETE FROM product WHERE name = what;
      SET message = 'dropped';
    END;

  -- The lines go first: each statement is tested at its end.
  PROCEDURE drop_order (IN order_id INTEGER, OUT lines INTEGER)
    BEGIN ATOMIC
      SELECT COUNT(*) INTO lines FROM order_line WHERE id = order_id;
      DELETE FROM order_line WHERE id = order_id;
      DELETE FROM orders WHERE id = order_id;
    END;

  -- An UPDATE of the key fails while there are lines.
  PROCEDURE renumber (IN order_id INTEGER, IN new_id INTEGER)
    UPDATE orders SET id = new_id WHERE id = order_id;
END MODULE
