-- Parts are made of parts: a function calls itself for the cost of one, and a procedure for the list of all its pieces.
CREATE TABLE part (
  name VARCHAR(10) PRIMARY KEY,
  cost NUMERIC(7,2) NOT NULL
);
CREATE TABLE component (
  whole  VARCHAR(10),
  part   VARCHAR(10),
  pieces INTEGER NOT NULL,
  PRIMARY KEY (whole, part)
);
CREATE TABLE pick_list (
  no     INTEGER PRIMARY KEY,
  level  SMALLINT NOT NULL,
  part   VARCHAR(10) NOT NULL,
  pieces INTEGER NOT NULL
);

CREATE MODULE assembly
  FUNCTION cost_of (wanted VARCHAR(10)) RETURNS NUMERIC(11,2)
    BEGIN
      DECLARE total NUMERIC(11,2);
      SET total = (SELECT cost FROM part WHERE name = wanted);
      FOR c AS SELECT part, pieces FROM component WHERE whole = wanted DO
        SET total = total + c.pieces * cost_of(c.part);
      END FOR;
      RETURN total;
    END;

  PROCEDURE list_parts (IN wanted VARCHAR(10), IN pieces INTEGER, IN level SMALLINT)
    BEGIN
      INSERT INTO pick_list VALUES (COALESCE((SELECT MAX(no) FROM pick_list), 0) + 1, level, wanted, pieces);
      FOR c AS SELECT part, pieces AS in_each FROM component WHERE whole = wanted DO
        CALL list_parts(c.part, pieces * c.in_each, level + 1);
      END FOR;
    END;

  PROCEDURE quote (IN wanted VARCHAR(10), OUT cost NUMERIC(11,2))
    SET cost = cost_of(wanted);
END MODULE
