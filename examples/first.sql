CREATE TABLE temperatures (room INTEGER, degrees INTEGER);
INSERT INTO temperatures VALUES (1, 20), (2, -3), (3, NULL);
INSERT INTO temperatures VALUES (1, 2147483648);
INSERT INTO rooms VALUES (1);
SELECT * FROM temperatures;
