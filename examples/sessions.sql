-- A box office of three sessions: who books at once, and who is forgotten while somebody is at work on their data.
--
--     ./subjectdb - step < examples/sessions.sql
--
-- What each call is answered stands in sessions.out, in the same order. A line as the next but one says whose calls follow.

-- session 1
CREATE DATA_SUBJECT TABLE people (id INT PRIMARY KEY, name TEXT NOT NULL);
CREATE TABLE concerts (id INT PRIMARY KEY, title TEXT NOT NULL, seats INT NOT NULL);
-- A booking is a person's. That it names a concert says nothing of owners.
CREATE TABLE bookings (id INT PRIMARY KEY, who INT OWNED_BY people(id), concert INT NOT NULL REFERENCES concerts(id), seats INT NOT NULL);
INSERT INTO people VALUES (1, 'Ann'), (2, 'Bo');
INSERT INTO concerts VALUES (1, 'Winterreise', 5), (2, 'Organ at noon', 80);

-- 1. Ann books three seats. Until her COMMIT nobody else sees that, and her transaction holds the two rows that it writes.
BEGIN;
UPDATE concerts SET seats = seats - 3 WHERE id = 1 AND seats >= 3;
INSERT INTO bookings VALUES (100, 1, 1, 3);

-- Bo books at the same time. Nobody waits: the call is refused at once, and says which session holds which row.
-- session 2
BEGIN;
UPDATE concerts SET seats = seats - 3 WHERE id = 1 AND seats >= 3;
ROLLBACK;
-- Outside a transaction a SELECT is never refused so. It shows what is committed.
SELECT title, seats FROM concerts;

-- session 1
COMMIT;

-- 2. Bo tries again. `ok 0`: there are no three seats left; two will do.
-- session 2
BEGIN;
UPDATE concerts SET seats = seats - 3 WHERE id = 1 AND seats >= 3;
UPDATE concerts SET seats = seats - 2 WHERE id = 1 AND seats >= 2;
INSERT INTO bookings VALUES (101, 2, 1, 2);
COMMIT;

-- 3. A clerk moves Ann's booking to the other concert.
-- session 3
BEGIN;
SELECT seats FROM bookings WHERE id = 100;
UPDATE concerts SET seats = seats + 3 WHERE id = 1;
UPDATE concerts SET seats = seats - 3 WHERE id = 2;
-- Meanwhile Ann asks to be forgotten. That is never refused: the clerk's transaction, which has read one of her rows, ends.
-- session 1
GDPR FORGET people 1;
-- session 3
UPDATE bookings SET concert = 2 WHERE id = 100;
-- Nothing of it is left, so all of it is done again; and now there is nothing to move.
BEGIN;
SELECT seats FROM bookings WHERE id = 100;
ROLLBACK;

-- 4. A new table or view has to wait for a moment in which nobody else is in a transaction.
-- session 2
BEGIN;
SELECT * FROM bookings;
-- session 3
CREATE VIEW booked AS SELECT concert, SUM(seats) AS seats FROM bookings GROUP BY concert;
-- session 2
COMMIT;
-- session 3
CREATE VIEW booked AS SELECT concert, SUM(seats) AS seats FROM bookings GROUP BY concert;
SELECT * FROM booked;
-- Ann's seats are still counted as taken: that is the application's to mend.
SELECT title, seats FROM concerts;
