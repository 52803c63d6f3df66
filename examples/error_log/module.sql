-- A handler writes what GET STACKED DIAGNOSTICS gives of an error into a log, and RESIGNAL raises it again with the job's number.
CREATE TABLE error_log (
  no      INTEGER PRIMARY KEY,
  state   CHAR(5) NOT NULL,
  message VARCHAR(40),
  job     INTEGER
);
CREATE TABLE job (
  id       INTEGER PRIMARY KEY,
  total    INTEGER,
  parts    INTEGER,
  share    NUMERIC(9,2),
  failures INTEGER DEFAULT 0 NOT NULL
);

CREATE MODULE jobs
  -- In a procedure that an action calls no action runs, so a handler reads the error itself and hands over what it read.
  PROCEDURE log_error (IN state CHAR(5), IN message VARCHAR(40), IN job INTEGER)
    INSERT INTO error_log VALUES (COALESCE((SELECT MAX(no) FROM error_log), 0) + 1, state, message, job);

  PROCEDURE compute (IN job_id INTEGER)
    BEGIN
      DECLARE EXIT HANDLER FOR SQLEXCEPTION
        BEGIN
          DECLARE state CHAR(5);
          DECLARE message VARCHAR(40);
          -- The UPDATE empties the current diagnostics area, and the stacked one still has the error.
          UPDATE job SET failures = failures + 1 WHERE id = job_id;
          GET STACKED DIAGNOSTICS EXCEPTION 1 state = RETURNED_SQLSTATE, message = MESSAGE_TEXT;
          CALL log_error(state, message, job_id);
          RESIGNAL SQLSTATE '45200' SET MESSAGE_TEXT = 'job ' || CAST(job_id AS VARCHAR(11)) || ' failed';
        END;
      UPDATE job SET share = total * 1.00 / parts WHERE id = job_id;
    END;

  -- The last entry of the area is the first cause.
  PROCEDURE compute_all (OUT failed INTEGER, OUT first_cause VARCHAR(40))
    BEGIN
      DECLARE entries INTEGER;
      DECLARE CONTINUE HANDLER FOR SQLSTATE '45200'
        BEGIN
          SET failed = failed + 1;
          IF first_cause IS NULL THEN
            GET STACKED DIAGNOSTICS entries = NUMBER;
            GET STACKED DIAGNOSTICS EXCEPTION entries first_cause = MESSAGE_TEXT;
          END IF;
        END;
      SET failed = 0;
      FOR j AS SELECT id FROM job DO
        CALL compute(j.id);
      END FOR;
    END;
END MODULE
