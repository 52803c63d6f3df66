INSERT INTO input (no, amount)
  VALUES (1, '12.50'), (2, 'twelve'), (3, ' 7 '), (4, '-3'), (5, '123456.5'), (6, NULL);
CALL import_all(?, ?);
SELECT * FROM input;
SELECT * FROM payment;
CALL import_all(?, ?);   -- no row is left
