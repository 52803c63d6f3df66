-- An INSERT is tried again under another name while the key is taken, at most a given number of times.
CREATE TABLE login (
  name  VARCHAR(12) PRIMARY KEY,
  owner VARCHAR(20) NOT NULL
);

CREATE MODULE logins
  PROCEDURE register (IN wish VARCHAR(10), IN person VARCHAR(20), IN most_tries SMALLINT, OUT given VARCHAR(12))
    BEGIN
      DECLARE tries SMALLINT DEFAULT 1;
      SET given = wish;
      trying: LOOP
        BEGIN
          DECLARE EXIT HANDLER FOR SQLSTATE '23000'
            BEGIN
              IF tries = most_tries THEN
                RESIGNAL SQLSTATE '45030' SET MESSAGE_TEXT = 'no name like ' || wish || ' is free';
              END IF;
              SET tries = tries + 1;
              SET given = wish || CAST(tries AS VARCHAR(2));
            END;
          INSERT INTO login VALUES (given, person);
          LEAVE trying;
        END;
      END LOOP trying;
    END;
END MODULE
