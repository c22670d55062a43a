CREATE TABLE temperatures (room INTEGER, degrees INTEGER);
INSERT INTO temperatures VALUES (1, 20), (2, -3), (3, NULL);
SELECT * FROM temperatures; -- every line is in order, so the program ends with 0
