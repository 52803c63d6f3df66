CALL quote(10, 9, 'DE', ?, ?);
CALL quote(10, 10, 'FR', ?, ?);
CALL quote(9.99, 100, 'DE', ?, ?);
CALL quote(10, 1, 'XX', ?, ?);
CALL quote(10, 1, NULL, ?, ?);
