INSERT INTO product VALUES ('lamp', 40), ('mug', 7.50), ('sofa', 300);
INSERT INTO orders VALUES (1, 'Ada'), (2, 'Blaise');
CALL add_line(1, 'lamp', 2, NULL, ?);
CALL add_line(1, 'mug', 4, 1, ?);
CALL add_line(1, 'mug', 4, 7, ?);    -- no line 7
CALL add_line(3, 'mug', 1, NULL, ?); -- no order 3
CALL add_line(2, 'bed', 1, NULL, ?); -- no such product
CALL add_line(2, 'mug', 0, NULL, ?); -- the CHECK
CALL drop_product('lamp', ?);        -- a line refers to it
CALL drop_product('sofa', ?);
CALL renumber(1, 9);                 -- its lines would refer to no order
CALL renumber(2, 8);
INSERT INTO order_line VALUES (8, 2, 'mug', 1, 1), (8, 1, 'lamp', 1, NULL);
SELECT * FROM order_line;
CALL drop_order(1, ?);
SELECT * FROM orders;
SELECT COUNT(*) FROM order_line;
