-- Input is tested before it is stored: conditions of the module's own say what is wrong, and a caller handles them by name.
CREATE TABLE member (
  mail VARCHAR(40) PRIMARY KEY,
  nick VARCHAR(12) NOT NULL,
  age  SMALLINT
);

CREATE MODULE members
  PROCEDURE enter (IN mail VARCHAR(100), IN nick VARCHAR(100), IN age INTEGER)
    BEGIN
      DECLARE bad_mail CONDITION FOR SQLSTATE '45100';
      DECLARE bad_nick CONDITION FOR SQLSTATE '45101';
      IF mail NOT LIKE '%_@_%' OR POSITION(' ' IN mail) > 0 THEN
        SIGNAL bad_mail SET MESSAGE_TEXT = 'not a mail address: ' || mail;
      END IF;
      IF CHAR_LENGTH(nick) NOT BETWEEN 2 AND 12 THEN
        SIGNAL bad_nick SET MESSAGE_TEXT = 'a nick has 2 to 12 characters';
      ELSEIF UPPER(nick) IN ('ADMIN', 'ROOT') THEN
        SIGNAL bad_nick SET MESSAGE_TEXT = 'this nick is not given away';
      END IF;
      INSERT INTO member VALUES (LOWER(mail), nick, age);
    END;

  PROCEDURE try_to_enter (IN mail VARCHAR(100), IN nick VARCHAR(100), IN age INTEGER, OUT outcome VARCHAR(80))
    BEGIN
      DECLARE bad_mail CONDITION FOR SQLSTATE '45100';
      DECLARE bad_nick CONDITION FOR SQLSTATE '45101';
      DECLARE EXIT HANDLER FOR bad_mail, bad_nick GET DIAGNOSTICS EXCEPTION 1 outcome = MESSAGE_TEXT;
      DECLARE EXIT HANDLER FOR SQLSTATE '23000' SET outcome = 'entered before, or not complete';
      CALL enter(mail, nick, age);
      SET outcome = 'entered';
    END;
END MODULE
