-- SELECT, step by step, over the tables of a small shop.
--
--     ./subjectdb - step < examples/queries.sql
--
-- What each call is answered stands in queries.out, in the same order.

-- What the shop sells: its price in cents, and what it cost before. A table has one primary key.
CREATE TABLE products (id INT PRIMARY KEY, name TEXT NOT NULL, kind TEXT, price INT, before INT);
-- What was sold: of which product, how many pieces, and in which town; NULL is a sale on the web.
CREATE TABLE sales (id INT PRIMARY KEY, product INT NOT NULL, pieces INT NOT NULL, town TEXT);

-- An INSERT puts a row or several. Without a list of columns a row has a value for each column.
INSERT INTO products VALUES (3, 'cup', 'kitchen', 1250, 1400), (1, 'green tea', 'drinks', 480, 450);
-- With a list the values come in its order, and a column that isn't listed gets NULL.
INSERT INTO products (name, id, price, kind) VALUES ('coffee', 2, 890, 'drinks'), ('teapot', 5, 4200, 'kitchen');
INSERT INTO products (id, name) VALUES (4, 'gift card');
INSERT INTO sales VALUES (101, 1, 2, 'Bern'), (102, 3, 1, NULL), (103, 2, 1, 'Basel'), (104, 1, 5, NULL);
INSERT INTO sales VALUES (105, 4, 1, 'Bern'), (106, 3, 4, 'Bern'), (107, 9, 1, 'Basel');

-- 1. All columns of all rows. Rows come by rising primary key, however they were put.
SELECT * FROM products;

-- 2. Some columns, in any order. AS gives a column another name, though a reply shows values alone.
SELECT name, price FROM products;
SELECT id AS number, name FROM products;

-- 3. WHERE keeps the rows for which its condition is true.
SELECT name FROM products WHERE price < 1000;
SELECT * FROM products WHERE id = 3;
-- Texts are compared byte by byte, so 'Drinks' isn't 'drinks', and 'coffee' comes before 'd'.
SELECT name FROM products WHERE kind = 'Drinks';
SELECT name FROM products WHERE name < 'd';
-- On the right may stand another column: what is cheaper than before?
SELECT name, price, before FROM products WHERE price < before;

-- 4. NOT binds closest, then AND, then OR.
SELECT name FROM products WHERE kind = 'drinks' OR kind = 'kitchen' AND price > 2000;
SELECT name FROM products WHERE (kind = 'drinks' OR kind = 'kitchen') AND price > 2000;
SELECT name FROM products WHERE NOT kind = 'drinks' AND price < 2000;
SELECT name FROM products WHERE NOT (kind = 'drinks' AND price < 2000);

-- 5. NULL is no value: a comparison with it is unknown, and what is unknown isn't kept, with or without NOT.
-- So the gift card, whose kind is NULL, is in none of these three.
SELECT name FROM products WHERE kind = 'drinks';
SELECT name FROM products WHERE NOT kind = 'drinks';
SELECT name FROM products WHERE kind = NULL;
-- IS NULL finds it.
SELECT name FROM products WHERE kind IS NULL;
SELECT name FROM products WHERE kind <> 'drinks' OR kind IS NULL;

-- 6. ORDER BY sorts by one column, shown or not. NULL comes first, and with DESC last.
SELECT name, price FROM products ORDER BY price;
SELECT name, price FROM products ORDER BY price DESC;
-- Rows that are equal in that column stay in the order of their keys.
SELECT name FROM products ORDER BY kind;

-- 7. COUNT(*) counts rows. SUM adds up the values of a column and passes over NULL.
SELECT COUNT(*), SUM(pieces) FROM sales;
SELECT COUNT(*), SUM(price) FROM products;
-- Over no rows there is one row all the same: the count is 0, and there is nothing to add up.
SELECT COUNT(*), SUM(pieces) FROM sales WHERE town = 'Chur';

-- 8. GROUP BY makes one row of all rows that are equal in a column. The NULLs are one group, the first.
SELECT town, COUNT(*), SUM(pieces) FROM sales GROUP BY town;
SELECT product, SUM(pieces) AS pieces FROM sales WHERE town IS NOT NULL GROUP BY product;
-- Here ORDER BY names a column of the reply: by its AS name, else by its own, or as count or sum.
SELECT product, SUM(pieces) AS total FROM sales GROUP BY product ORDER BY total DESC;
SELECT town, COUNT(*) FROM sales GROUP BY town ORDER BY count;

-- 9. JOIN puts rows of two tables side by side where the two columns of ON are equal.
-- The sale of product 9, which isn't there, meets no product, and the teapot meets no sale.
SELECT sales.id, name, pieces FROM sales JOIN products ON product = products.id;
-- A name that both tables have needs its table before it. The left table's rows lead, by key.
SELECT name, sales.id FROM products JOIN sales ON products.id = sales.product;
-- All columns: first the left table's, then the right one's.
SELECT * FROM sales JOIN products ON product = products.id WHERE town = 'Bern';
SELECT name, pieces, town FROM sales JOIN products ON product = products.id WHERE pieces > 1 ORDER BY price DESC;

-- 10. A call that can't be answered is refused, and says why. Nothing changes, and the script goes on.
-- There is no such table.
SELECT * FROM product;
-- There is no such column; both tables have an id; this column isn't the one that is grouped by.
SELECT title FROM products;
SELECT id FROM sales JOIN products ON product = products.id;
SELECT town, pieces, COUNT(*) FROM sales GROUP BY town;
-- A number isn't compared with a text, and texts aren't added up.
SELECT name FROM products WHERE price = '480';
SELECT SUM(name) FROM products;
-- The key is there; the row has too few values; a name is required; a price is a number.
INSERT INTO products VALUES (6, 'saucer', 'kitchen', 700, NULL), (5, 'kettle', 'kitchen', 3900, NULL);
INSERT INTO products VALUES (6, 'saucer');
INSERT INTO products (id, price) VALUES (6, 700);
INSERT INTO products VALUES (6, 'saucer', 'kitchen', '700', NULL);
-- An INSERT that is refused puts none of its rows: there is no saucer.
SELECT COUNT(*) FROM products;
