CALL enter('Ada@example.org', 'ada', 36);
CALL enter('Ada', 'ada', 36);
CALL try_to_enter('bob at example.org', 'bob', 40, ?);
CALL try_to_enter('bob@example.org', 'b', 40, ?);
CALL try_to_enter('bob@example.org', 'Root', 40, ?);
CALL try_to_enter('ADA@example.org', 'ada', 36, ?);
CALL try_to_enter('bob@example.org', 'bob', 40000, ?);   -- no SMALLINT, for which no handler is there
CALL try_to_enter('bob@example.org', 'bob', NULL, ?);
SELECT * FROM member;
