-- A report with a line for each region: FOR walks over the regions, and set functions sum up the sales of each.
CREATE TABLE region (
  name VARCHAR(10) PRIMARY KEY
);
CREATE TABLE sale (
  no     INTEGER PRIMARY KEY,
  region VARCHAR(10) NOT NULL,
  amount NUMERIC(9,2)
);
CREATE TABLE report (
  line    INTEGER PRIMARY KEY,
  content VARCHAR(80) NOT NULL
);

CREATE MODULE reports
  FUNCTION padded (content VARCHAR(40), width INTEGER) RETURNS VARCHAR(40)
    BEGIN
      DECLARE longer VARCHAR(40) DEFAULT content;
      WHILE CHAR_LENGTH(longer) < width DO
        SET longer = longer || '.';
      END WHILE;
      RETURN longer;
    END;

  FUNCTION summary (sales INTEGER, total NUMERIC(9,2), average NUMERIC(9,2)) RETURNS VARCHAR(60)
    RETURN CASE sales
      WHEN 0 THEN 'nothing'
      ELSE CAST(total AS VARCHAR(12)) || ' in ' || CAST(sales AS VARCHAR(9)) || ', ' || CAST(average AS VARCHAR(12)) || ' each'
    END;

  PROCEDURE write_report (OUT lines INTEGER)
    BEGIN
      DECLARE sales INTEGER;
      DECLARE total, average NUMERIC(9,2);
      SET lines = 0;
      FOR r AS SELECT name FROM region ORDER BY name DESC DO
        SELECT COUNT(amount), SUM(amount), AVG(amount) INTO sales, total, average FROM sale WHERE region = r.name;
        SET lines = lines + 1;
        INSERT INTO report VALUES (lines, padded(r.name, 8) || summary(sales, total, average));
      END FOR;
    END;
END MODULE
