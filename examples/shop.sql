-- A small web shop: what it sells, who buys, what was ordered.
--
--     ./subjectdb - step < examples/shop.sql
--
-- What each call is answered stands in shop.out, in the same order.

-- Each product has a key, a name that no other has, a price in cents, and how many are in stock.
CREATE TABLE products (id INT PRIMARY KEY, name TEXT NOT NULL UNIQUE, price INT NOT NULL, stock INT NOT NULL);
-- A customer may do without a mail address, but no two have the same.
CREATE TABLE customers (id INT PRIMARY KEY, name TEXT NOT NULL, mail TEXT UNIQUE);
-- An order is of a customer that is there, a line of an order and a product that are there.
CREATE TABLE orders (id INT PRIMARY KEY, customer INT NOT NULL REFERENCES customers(id), day TEXT NOT NULL);
CREATE TABLE lines (id INT PRIMARY KEY, order_id INT NOT NULL REFERENCES orders(id),
  product INT NOT NULL REFERENCES products(id), pieces INT NOT NULL, price INT NOT NULL);

-- Views are selects that have a name. They show the rows as they are when they are asked.
CREATE VIEW sold AS SELECT product, SUM(pieces) AS pieces FROM lines GROUP BY product;
CREATE VIEW receipts AS SELECT order_id, name, pieces, lines.price FROM lines JOIN products ON product = products.id;
CREATE VIEW empty_shelves AS SELECT id, name FROM products WHERE stock = 0;

INSERT INTO products VALUES (1, 'green tea', 480, 20), (2, 'coffee', 890, 5), (3, 'cup', 1250, 1);
INSERT INTO customers VALUES (1, 'Ann', 'ann@example.org'), (2, 'Bo', NULL), (3, 'Cy', NULL);

-- 1. An order comes in. The stock falls where there is enough of it; `ok 1` says that there was.
UPDATE products SET stock = stock - 2 WHERE id = 1 AND stock >= 2;
UPDATE products SET stock = stock - 1 WHERE id = 3 AND stock >= 1;
INSERT INTO orders VALUES (100, 1, '2026-11-27');
INSERT INTO lines VALUES (1, 100, 1, 2, 480), (2, 100, 3, 1, 1250);
-- The next customer wants a cup, too. `ok 0`: no row met the condition, so there is none left.
UPDATE products SET stock = stock - 1 WHERE id = 3 AND stock >= 1;
SELECT * FROM empty_shelves;
SELECT name, pieces, price FROM receipts WHERE order_id = 100;
SELECT * FROM sold;

-- 2. What the store refuses. A refused call changes nothing.
-- The name is another product's; of the two the one with the lower key is told.
INSERT INTO products VALUES (4, 'coffee', 990, 3);
-- There is no customer 9, and no product 9; the second row of this INSERT is wrong, so the first isn't put either.
INSERT INTO orders VALUES (101, 9, '2026-11-27');
INSERT INTO lines VALUES (3, 100, 2, 1, 890), (4, 100, 9, 1, 100);
-- The key is there; a price is required; a name is no price.
INSERT INTO customers VALUES (2, 'Di', NULL);
INSERT INTO products (id, name, stock) VALUES (4, 'pot', 3);
UPDATE products SET price = name;
-- A customer with an order can't go, and a key never changes.
DELETE FROM customers WHERE id = 1;
UPDATE customers SET id = 4 WHERE id = 3;
SELECT COUNT(*), SUM(pieces) FROM lines;

-- 3. Prices rise, and what was sold keeps the price that it had.
UPDATE products SET price = price + 50 WHERE price < 1000;
-- Columns are set from the row as it was, so two can change places.
UPDATE products SET price = stock, stock = price WHERE id = 2;
UPDATE products SET price = stock, stock = price WHERE id = 2;
SELECT name, price, stock FROM products ORDER BY price;
SELECT name, price FROM receipts;

-- 4. An order is taken back: first its lines, then the order, and then nothing names the customer any more.
UPDATE products SET stock = stock + 2 WHERE id = 1;
UPDATE products SET stock = stock + 1 WHERE id = 3;
DELETE FROM orders WHERE id = 100;
DELETE FROM lines WHERE order_id = 100;
DELETE FROM orders WHERE id = 100;
DELETE FROM customers WHERE id = 1;
SELECT * FROM sold;
SELECT * FROM empty_shelves;
SELECT name, mail FROM customers;
