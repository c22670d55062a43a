-- A stock of small parts. Rows of an UPDATE are put behind the others: the SELECTs list them in that order.
CREATE TABLE stock (item VARCHAR(10) NOT NULL, pieces INTEGER, wanted INTEGER);
INSERT INTO stock VALUES ('bolt', 70, 100), ('nut', 250, 100), ('screw', NULL, 40);

-- every right side is computed from the old row: 100 - 70 are still wanted
UPDATE stock SET pieces = pieces + 50, wanted = wanted - pieces WHERE pieces < wanted;
SELECT * FROM stock;

-- two columns change places
UPDATE stock SET pieces = wanted, wanted = pieces WHERE item = 'nut';
SELECT item, pieces, wanted FROM stock WHERE item <> 'bolt';

-- whether NULL differs from 120 is not known, so the screws stay
DELETE FROM stock WHERE pieces <> 120;
SELECT item FROM stock;

-- refused, and nothing is changed: a NULL where none is allowed, a number of more than 32 bits, a text for a
-- number, and an aggregate
UPDATE stock SET item = NULL;
UPDATE stock SET wanted = wanted * 100000000;
UPDATE stock SET wanted = 'many';
DELETE FROM stock WHERE COUNT(*) > 1;

-- all of them
UPDATE stock SET pieces = 0;
SELECT item, pieces FROM stock;
DELETE FROM stock;
SELECT * FROM stock;
