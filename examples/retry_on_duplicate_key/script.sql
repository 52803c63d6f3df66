CALL register('ada', 'Ada Lovelace', 3, ?);
CALL register('ada', 'Ada Yonath', 3, ?);
CALL register('ada', 'Ada Jones', 3, ?);
CALL register('ada', 'Ada Leverson', 3, ?);   -- ada, ada2 and ada3 are taken
SELECT * FROM login;
