CREATE DATA_SUBJECT TABLE users (id INT PRIMARY KEY, name TEXT);
CREATE TABLE msgs (id INT PRIMARY KEY, sender INT OWNED_BY users(id),
  receiver INT OWNED_BY users(id), body TEXT, device TEXT,
  ON GET receiver ANON (device), ON DEL sender ANON (device));
INSERT INTO users VALUES (5, 'Ann'), (6, 'Bo');
INSERT INTO msgs VALUES (1, 5, 6, 'Hello', 'phone'), (2, 5, NULL, 'A draft', 'laptop');
GDPR GET users 6;
GDPR FORGET users 5;
SELECT * FROM msgs;
