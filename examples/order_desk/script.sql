INSERT INTO stock VALUES ('lamp', 5, 40), ('mug', 12, 7.50);
CALL place_order(1, 'lamp', 2, ?);
CALL place_order(1, 'mug', 4, ?);
CALL bill(1, ?, ?);
CALL place_order(2, 'lamp', 9, ?);   -- more than there are
CALL place_order(2, 'sofa', 1, ?);   -- no row of stock
CALL place_order(1, 'mug', 1, ?);    -- the order has mugs already
SELECT * FROM stock;
SELECT * FROM orders;
CALL cancel(1, ?);
SELECT * FROM stock ORDER BY product DESC;
SELECT COUNT(*), SUM(quantity) FROM orders;
ROLLBACK;
SELECT * FROM stock;
