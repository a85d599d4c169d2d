-- A blog with several writers: each row knows whose it is.
--
--     ./subjectdb - step < examples/blog.sql
--
-- What each call is answered stands in blog.out, in the same order.

-- The rows of a DATA_SUBJECT table are people.
CREATE DATA_SUBJECT TABLE people (id INT PRIMARY KEY, name TEXT NOT NULL, mail TEXT UNIQUE);
-- A post is its author's. OWNED_BY is a reference, and says whose the row is.
CREATE TABLE posts (id INT PRIMARY KEY, author INT NOT NULL OWNED_BY people(id), title TEXT NOT NULL, body TEXT);
-- A comment is its writer's, and the author of the post may see it: ACCESSED_BY leads to the post, and from there on
-- OWNED_BY leads to the author. It answers another comment or none, by a reference that says nothing of owners.
CREATE TABLE comments (id INT PRIMARY KEY, post INT ACCESSED_BY posts(id), writer INT OWNED_BY people(id), body TEXT,
  answers INT REFERENCES comments(id));
-- An image lies in a post, and so it is the post's author's.
CREATE TABLE images (id INT PRIMARY KEY, post INT OWNED_BY posts(id), file TEXT NOT NULL);
-- Tags are nobody's.
CREATE TABLE tags (id INT PRIMARY KEY, word TEXT NOT NULL UNIQUE);
CREATE TABLE tagged (id INT PRIMARY KEY, post INT OWNED_BY posts(id), tag INT NOT NULL REFERENCES tags(id));

-- Who owns what, before there is a row: the tables of people, private ones, whose rows need an owner, and public ones.
EXPLAIN COMPLIANCE;

CREATE VIEW front_page AS SELECT posts.id, title, name FROM posts JOIN people ON author = people.id;
CREATE VIEW per_post AS SELECT post, COUNT(*) AS comments FROM comments GROUP BY post;

INSERT INTO people VALUES (1, 'Ann', 'ann@example.org'), (2, 'Bo', NULL), (3, 'Cy', NULL);
INSERT INTO posts VALUES (1, 1, 'Hello', 'My first post.'), (2, 2, 'Bread', NULL), (3, 1, 'Tea', 'Green.');
-- Comments 2 and 3 answer comments of the same INSERT.
INSERT INTO comments VALUES (1, 1, 2, 'Welcome!', NULL), (2, 1, 1, 'Thanks.', 1), (3, 1, 3, 'Me, too.', 2);
INSERT INTO images VALUES (1, 1, 'sea.jpg'), (2, 2, 'loaf.jpg');
INSERT INTO tags VALUES (1, 'food'), (2, 'news');
INSERT INTO tagged VALUES (1, 2, 1), (2, 3, 1);

-- 1. A row of a private table has an owner, always. A post without an author is refused as NULL, since its column is NOT
-- NULL; a comment without a writer has no owner, though the author of its post would see it; an image has one by its post.
INSERT INTO posts VALUES (4, NULL, 'Nobody', NULL);
INSERT INTO comments VALUES (4, 1, NULL, 'Who said that?', NULL);
UPDATE comments SET writer = NULL WHERE id = 3;
UPDATE images SET post = NULL;
-- Comments may stand without a post; tags need nobody.
UPDATE comments SET post = NULL WHERE id = 3;
DELETE FROM tags WHERE word = 'news';

-- 2. What others refer to can't go away under them.
DELETE FROM people WHERE id = 2;
DELETE FROM posts WHERE id = 2;
DELETE FROM comments WHERE id = 2;
-- A post goes with all that hangs on it, from the lowest rows up.
DELETE FROM images WHERE post = 2;
DELETE FROM tagged WHERE post = 2;
DELETE FROM posts WHERE id = 2;

-- 3. A post changes hands, and its image with it.
UPDATE posts SET author = 3 WHERE id = 1;
SELECT * FROM front_page;
SELECT * FROM per_post;
SELECT title, file FROM images JOIN posts ON post = posts.id;

-- 4. Two people want one mail address.
UPDATE people SET mail = 'ann@example.org' WHERE id = 2;
UPDATE people SET mail = 'bo@example.org' WHERE id = 2;
SELECT name FROM people WHERE mail IS NULL;
