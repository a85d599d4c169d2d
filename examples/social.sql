-- A social network, and what its people are owed: to be shown all that is held about them, and to be forgotten.
--
--     ./subjectdb - step < examples/social.sql
--
-- What each call is answered stands in social.out, in the same order.

CREATE DATA_SUBJECT TABLE users (id INT PRIMARY KEY, name TEXT NOT NULL, mail TEXT UNIQUE);
CREATE TABLE profiles (id INT PRIMARY KEY, who INT NOT NULL OWNED_BY users(id), about TEXT);
-- A circle is its founder's, and that of each of its members: the membership OWNS it.
CREATE TABLE circles (id INT PRIMARY KEY, founder INT OWNED_BY users(id), title TEXT NOT NULL);
CREATE TABLE members (id INT PRIMARY KEY, who INT OWNED_BY users(id), circle INT OWNS circles(id));
-- A post is its author's, and may be seen by the circle's members; a comment by those who may see the post.
CREATE TABLE posts (id INT PRIMARY KEY, author INT OWNED_BY users(id), circle INT ACCESSED_BY circles(id), body TEXT);
CREATE TABLE comments (id INT PRIMARY KEY, post INT ACCESSED_BY posts(id), author INT OWNED_BY users(id), body TEXT);
-- A message is of two people. The device that it was sent from is the sender's affair: the receiver isn't shown it, and it
-- goes with the sender.
CREATE TABLE messages (id INT PRIMARY KEY, sender INT OWNED_BY users(id), receiver INT OWNED_BY users(id), body TEXT,
  device TEXT, ON GET receiver ANON (device), ON DEL sender ANON (device));
-- A like is of the one who likes. That it names a post gives nobody a right to it.
CREATE TABLE likes (id INT PRIMARY KEY, post INT REFERENCES posts(id), who INT OWNED_BY users(id));
CREATE VIEW per_post AS SELECT post, COUNT(*) AS comments FROM comments GROUP BY post;
CREATE VIEW wall AS SELECT posts.id, name, body FROM posts JOIN users ON author = users.id;

INSERT INTO users VALUES (1, 'Ada', 'ada@example.org'), (2, 'Ben', 'ben@example.org'), (3, 'Cy', NULL);
INSERT INTO profiles VALUES (1, 1, 'I play chess.'), (2, 2, NULL);
INSERT INTO circles VALUES (1, 1, 'chess');
INSERT INTO members VALUES (1, 1, 1), (2, 2, 1);
INSERT INTO posts VALUES (1, 1, 1, 'Who plays on Friday?'), (2, 3, NULL, 'Alone here.');
INSERT INTO comments VALUES (1, 1, 2, 'I do.'), (2, 1, 3, 'May I join?');
INSERT INTO messages VALUES (1, 2, 1, 'White or black?', 'phone'), (2, 1, 3, 'Do come!', 'laptop');
INSERT INTO likes VALUES (1, 1, 2), (2, 2, 1);

-- 1. What is held about Ben? His row, what is his, the circle by his membership, and what the circle shows him. That Ada
-- likes the post of Cy isn't about him.
GDPR GET users 2;
-- And about Cy, who is in no circle? The message came from Ada, so its device is hidden.
GDPR GET users 3;

-- 2. Ada wants to be forgotten. Her row goes, her profile, her membership, her post and her like. What others own, too,
-- stays with them, without her: the circle, the comments and Ben's like without her post, and two messages, one without
-- its device.
GDPR FORGET users 1;
SELECT * FROM circles;
SELECT * FROM comments;
SELECT * FROM messages;
SELECT * FROM likes;
-- Views show what is left.
SELECT * FROM per_post;
SELECT * FROM wall;

-- 3. She is gone, and nobody is forgotten twice. Whoever gets her number later, or her address, inherits nothing.
GDPR GET users 1;
INSERT INTO users VALUES (1, 'Eve', 'ada@example.org');
GDPR GET users 1;

-- 4. Ben was the last of the circle. All that only he held goes with him.
GDPR FORGET users 2;
SELECT COUNT(*) FROM circles;
GDPR GET users 3;
