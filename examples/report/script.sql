INSERT INTO region VALUES ('east'), ('north'), ('south');
INSERT INTO sale VALUES (1, 'north', 10), (2, 'north', 20.55), (3, 'south', NULL), (4, 'east', 5), (5, 'east', 6.02);
CALL write_report(?);
SELECT content FROM report;
SELECT COUNT(*), SUM(amount) FROM sale;
