-- The second day of library.sql, in the same folder.
--
--     ./subjectdb shelf step < examples/library_again.sql
--
-- What each call is answered stands in library_again.out, in the same order.

-- 1. Places and calls are counted anew. Tables, views and rows are those of the day before, without what Bo had begun.
SELECT * FROM books;
SELECT * FROM loans;
CREATE TABLE books (id INT PRIMARY KEY);

-- 2. Bo borrows his book after all.
BEGIN;
UPDATE books SET pieces = pieces - 1 WHERE id = 1 AND pieces >= 1;
INSERT INTO loans VALUES (101, 2, 1, '2026-11-28');
COMMIT;
SELECT * FROM lent;

-- 3. Ann brings hers back and moves away. She asks what is known of her, and to be forgotten.
UPDATE books SET pieces = pieces + 1 WHERE id = 2;
GDPR GET readers 1;
GDPR FORGET readers 1;

-- The store was written anew for that, and neither her name nor her loan stands in the folder any more. CHECKPOINT writes the
-- store anew too, when no one is forgotten. What is answered is the same before and after it.
SELECT * FROM lent;
CHECKPOINT;
SELECT * FROM lent;
GDPR GET readers 1;
