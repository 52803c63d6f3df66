INSERT INTO price VALUES ('lamp', 40), ('mug', 7.50);
CALL cut_all(5);
CALL cut_all(5);   -- the mug would cost less than nothing
SELECT * FROM price;
SELECT * FROM audit;
