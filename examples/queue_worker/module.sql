-- A worker takes jobs from a queue: a job that is done is deleted where the cursor stands, and a failed one is tried again.
CREATE TABLE queue (
  no     INTEGER PRIMARY KEY,
  amount INTEGER,
  parts  INTEGER,
  tries  SMALLINT DEFAULT 0 NOT NULL
);
CREATE TABLE done (
  no    INTEGER PRIMARY KEY,
  share INTEGER
);
CREATE TABLE given_up (
  no     INTEGER PRIMARY KEY,
  reason VARCHAR(40)
);

CREATE MODULE worker
  PROCEDURE work (IN most INTEGER, OUT worked INTEGER)
    BEGIN
      DECLARE job, amount, parts INTEGER;
      DECLARE tries, at_end SMALLINT DEFAULT 0;
      DECLARE jobs CURSOR FOR SELECT no, amount, parts, tries FROM queue FOR UPDATE;
      DECLARE CONTINUE HANDLER FOR NOT FOUND SET at_end = 1;
      SET worked = 0;
      OPEN jobs;
      each_job: WHILE worked < most DO
        FETCH jobs INTO job, amount, parts, tries;
        IF at_end = 1 THEN LEAVE each_job; END IF;
        SET worked = worked + 1;
        BEGIN ATOMIC
          DECLARE why VARCHAR(40);
          DECLARE UNDO HANDLER FOR SQLEXCEPTION
            BEGIN
              GET DIAGNOSTICS EXCEPTION 1 why = MESSAGE_TEXT;
              IF tries < 2 THEN
                UPDATE queue SET tries = tries + 1 WHERE CURRENT OF jobs;
              ELSE
                INSERT INTO given_up VALUES (job, why);
                DELETE FROM queue WHERE CURRENT OF jobs;
              END IF;
            END;
          INSERT INTO done VALUES (job, amount / parts);
          DELETE FROM queue WHERE CURRENT OF jobs;
        END;
      END WHILE each_job;
      CLOSE jobs;
    END;
END MODULE
