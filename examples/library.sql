-- A library that lends books, kept in a folder: its first day. library_again.sql is the second.
--
--     mkdir shelf
--     ./subjectdb shelf step < examples/library.sql
--     ./subjectdb shelf step < examples/library_again.sql
--
-- The first run makes two files in the folder `shelf`, and the second finds in them what the first has left. What each call
-- is answered stands in library.out and library_again.out, in the same order. To begin anew, remove the folder.

CREATE DATA_SUBJECT TABLE readers (id INT PRIMARY KEY, name TEXT NOT NULL);
CREATE TABLE books (id INT PRIMARY KEY, title TEXT NOT NULL UNIQUE, pieces INT NOT NULL);
-- A loan is its reader's. That it names a book says nothing of owners.
CREATE TABLE loans (id INT PRIMARY KEY, who INT OWNED_BY readers(id), book INT NOT NULL REFERENCES books(id), day TEXT NOT NULL);
CREATE VIEW lent AS SELECT book, COUNT(*) AS times FROM loans GROUP BY book;

INSERT INTO readers VALUES (1, 'Ann'), (2, 'Bo');
INSERT INTO books VALUES (1, 'Middlemarch', 2), (2, 'Stoner', 1);

-- 1. Ann borrows a book. When COMMIT is answered, both rows are on the disk; before that neither is.
BEGIN;
UPDATE books SET pieces = pieces - 1 WHERE id = 2 AND pieces >= 1;
INSERT INTO loans VALUES (100, 1, 2, '2026-11-27');
COMMIT;

-- 2. Bo borrows one, too, but the run ends before his COMMIT. So nothing of this is kept.
BEGIN;
UPDATE books SET pieces = pieces - 1 WHERE id = 1 AND pieces >= 1;
INSERT INTO loans VALUES (101, 2, 1, '2026-11-27');
