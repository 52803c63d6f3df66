INSERT INTO step VALUES ('draft', 'go', 'review'), ('review', 'go', 'done'), ('review', 'reject', 'draft');
INSERT INTO document (id) VALUES (1), (2);
CALL act(1, 'go', ?);
CALL act(1, 'reject', ?);
CALL act(1, 'reject', ?);   -- a draft can't be rejected
CALL act(7, 'go', ?);
CALL finish(1, ?);
SELECT * FROM document;
SELECT * FROM history;
