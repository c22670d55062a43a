-- Rooms, heaters and temperatures; NULL is what is not known.
CREATE TABLE rooms (room INTEGER NOT NULL, name VARCHAR(12), floor INTEGER);
CREATE TABLE heaters (heater INTEGER NOT NULL, room INTEGER, maker VARCHAR(8));
CREATE TABLE temperatures (room INTEGER, degrees INTEGER);
INSERT INTO rooms VALUES (1, 'kitchen', 0), (2, 'guests'' room', 1), (3, NULL, 1);
INSERT INTO heaters VALUES (10, 1, 'Nord'), (11, 2, NULL), (12, 2, 'Sud'), (13, NULL, 'Nord');
INSERT INTO temperatures VALUES (1, 20), (2, -3), (2, NULL), (4, 17);

-- two tables: room 3 has no heater, and the room of heater 13 is equal to no room
SELECT h.heater, r.name FROM rooms AS r JOIN heaters h ON r.room = h.room;

-- three tables and arithmetic; where there are no degrees, they are not known to be below 30
SELECT name, degrees * 9 + 160 AS fifths, maker FROM rooms r JOIN temperatures t ON t.room = r.room JOIN heaters h ON h.room = r.room WHERE degrees < 30;

-- all columns of both tables, and each row of one beside each row of the other
SELECT * FROM rooms CROSS JOIN temperatures WHERE floor = 0 AND degrees BETWEEN 1 AND 30;

-- one table twice, under two names
SELECT a.heater, b.heater, b.heater - a.heater FROM heaters a, heaters b WHERE a.room = b.room AND a.heater < b.heater;

-- a maker that is not known is in no list, and is not known to be outside of it
SELECT heater, -heater, 'no room' FROM heaters WHERE room IS NULL OR maker NOT IN ('Nord', 'Sud');

-- no row is left
SELECT 1 FROM rooms WHERE name = 'Kitchen';

-- refused: a column of two tables, a table that stands further right, and a number beside a text
SELECT room FROM rooms, heaters;
SELECT maker FROM rooms r JOIN temperatures t ON t.room = h.room JOIN heaters h ON h.room = r.room;
SELECT name FROM rooms WHERE floor = 'up';
