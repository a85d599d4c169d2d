-- The first hour: a schema, rows, questions, and a person's data, shown and erased. docs/first_hour.md explains each step.
--
--     ./subjectdb - step < examples/first_hour.sql
--
-- What each call is answered stands in first_hour.out, in the same order.

-- Who are the people?
CREATE DATA_SUBJECT TABLE cooks (id INT PRIMARY KEY, name TEXT NOT NULL, mail TEXT UNIQUE);
-- Whose is each row, and who else may see it?
CREATE TABLE recipes (id INT PRIMARY KEY, cook INT NOT NULL OWNED_BY cooks(id), title TEXT NOT NULL);
CREATE TABLE ratings (id INT PRIMARY KEY, recipe INT ACCESSED_BY recipes(id), who INT OWNED_BY cooks(id),
  stars INT NOT NULL, device TEXT, ON GET recipe ANON (device));
-- What is nobody's?
CREATE TABLE foods (name TEXT PRIMARY KEY, grams INT);
CREATE TABLE parts (id INT PRIMARY KEY, recipe INT OWNED_BY recipes(id), food TEXT NOT NULL REFERENCES foods(name));
-- What do pages ask again and again?
CREATE VIEW stars AS SELECT recipe, COUNT(*) AS votes, SUM(stars) AS stars FROM ratings GROUP BY recipe;
-- What has been said so far, before a row is there.
EXPLAIN COMPLIANCE;

-- Rows. The first is refused, since its cook isn't there yet, and the last, since it has no owner.
INSERT INTO recipes VALUES (1, 1, 'Bread');
INSERT INTO cooks VALUES (1, 'Ann', 'ann@example.org'), (2, 'Bo', NULL);
INSERT INTO recipes VALUES (1, 1, 'Bread'), (2, 2, 'Ann''s tea');
INSERT INTO foods VALUES ('flour', 500), ('salt', NULL);
INSERT INTO parts VALUES (1, 1, 'flour'), (2, 1, 'salt');
INSERT INTO ratings VALUES (1, 1, 2, 5, 'phone'), (2, 1, 1, 4, 'laptop'), (3, 2, 1, 3, NULL);
INSERT INTO ratings (id, recipe, stars) VALUES (4, 1, 1);

-- Questions.
SELECT title, name FROM recipes JOIN cooks ON cook = cooks.id WHERE name = 'Ann';
SELECT food FROM parts WHERE recipe = 1 ORDER BY food DESC;
SELECT * FROM stars;

-- Changes. What others refer to can't go away under them.
UPDATE ratings SET stars = stars + 1 WHERE id = 3;
DELETE FROM foods WHERE name = 'salt';
DELETE FROM parts WHERE food = 'salt';
DELETE FROM foods WHERE name = 'salt';
SELECT title FROM recipes;

-- Ann asks what is held about her, and then to be forgotten.
GDPR GET cooks 1;
GDPR FORGET cooks 1;
SELECT * FROM ratings;
SELECT * FROM stars;
GDPR GET cooks 1;
GDPR GET cooks 2;
