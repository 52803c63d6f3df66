-- Documents go from state to state: a table holds the steps that are allowed, and another what was done.
CREATE TABLE step (
  state      VARCHAR(10),
  action     VARCHAR(10),
  next_state VARCHAR(10) NOT NULL,
  PRIMARY KEY (state, action)
);
CREATE TABLE document (
  id    INTEGER PRIMARY KEY,
  state VARCHAR(10) DEFAULT 'draft' NOT NULL
);
CREATE TABLE history (
  document INTEGER,
  no       SMALLINT,
  action   VARCHAR(10) NOT NULL,
  PRIMARY KEY (document, no)
);

CREATE MODULE workflow
  FUNCTION state_after (old_state VARCHAR(10), done VARCHAR(10)) RETURNS VARCHAR(10)
    RETURN (SELECT next_state FROM step WHERE state = old_state AND action = done);

  FUNCTION next_no (document_id INTEGER) RETURNS SMALLINT
    RETURN COALESCE((SELECT MAX(no) FROM history WHERE document = document_id), 0) + 1;

  PROCEDURE act (IN document_id INTEGER, IN action VARCHAR(10), OUT state VARCHAR(10))
    BEGIN ATOMIC
      DECLARE old_state VARCHAR(10);
      DECLARE not_allowed CONDITION;
      DECLARE EXIT HANDLER FOR NOT FOUND
        SIGNAL SQLSTATE '45400' SET MESSAGE_TEXT = 'no such document';
      SELECT state INTO old_state FROM document WHERE id = document_id;
      SET state = state_after(old_state, action);
      IF state IS NULL THEN
        SIGNAL not_allowed SET MESSAGE_TEXT = action || ' is not allowed in ' || old_state;
      END IF;
      UPDATE document SET state = act.state WHERE id = document_id;   -- the procedure's state, not the column
      INSERT INTO history VALUES (document_id, next_no(document_id), action);
    END;

  -- Goes on until no step is left. Outside of the procedure that declared it, the condition is matched by 45000.
  PROCEDURE finish (IN document_id INTEGER, OUT steps INTEGER)
    BEGIN
      DECLARE state VARCHAR(10);
      DECLARE EXIT HANDLER FOR SQLSTATE '45000' BEGIN END;
      SET steps = 0;
      LOOP
        CALL act(document_id, 'go', state);
        SET steps = steps + 1;
      END LOOP;
    END;
END MODULE
