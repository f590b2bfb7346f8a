/* What tables accept and reject whose schema calls the functions, without trust in the schema: CHECK, generated columns, and
   indexes by the collation and by an expression. */
PRAGMA trusted_schema = OFF;
CREATE TABLE quotas(
    name TEXT PRIMARY KEY, quota TEXT NOT NULL CHECK (size_explain(quota) IS NULL),
    bytes INTEGER GENERATED ALWAYS AS (size_parse(quota)) VIRTUAL, shown TEXT AS (size_text(bytes)));
CREATE TABLE stored(quota TEXT, bytes INTEGER AS (size_parse(quota)) STORED);
CREATE TABLE checked(quota TEXT CHECK (size_explain(quota) IS NULL));
CREATE VIEW totals AS SELECT size_in(sum(size_parse(quota)), 'KB') AS total FROM quotas;
CREATE VIEW calls AS SELECT size_sum(quota) AS s, size_sum(quota, 'bits') AS b, min(size_try(quota)) AS t,
    max(size_pretty(bytes)) AS p, max(size_text(bytes)) AS x, count(size_explain(quota)) AS e FROM quotas;
CREATE UNIQUE INDEX by_quota ON quotas(quota COLLATE SIZE);
CREATE INDEX by_parsed ON quotas(size_parse(quota));
INSERT INTO quotas VALUES ('a', '1.5 KiB'), ('b', '1 MB'), ('c', 12);
INSERT INTO checked VALUES ('12 Kiq'); -- error: CHECK constraint failed: size_explain(quota) IS NULL
INSERT INTO checked VALUES (x'3132'); -- error: CHECK constraint failed: size_explain(quota) IS NULL
INSERT INTO checked VALUES ('1 KB'), (''); -- error: CHECK constraint failed: size_explain(quota) IS NULL
INSERT INTO quotas VALUES ('d', '-1'); -- error: '-1' is not a size: the character '-' is not a number (character 1); hint: a size is not negative
INSERT INTO quotas VALUES ('d', '10 EB'); -- error: '10 EB' is 10000000000000000000 bytes, above the greatest INTEGER, 9223372036854775807
INSERT INTO quotas VALUES ('d', '1536'); -- error: UNIQUE constraint failed: quotas.quota
UPDATE quotas SET quota = '' WHERE name = 'a'; -- error: '' is not a size: no value can be found (at the end of the text); hint: a size begins with a number as in '12' or '1.5'
INSERT INTO stored VALUES ('2 KB'), ('-1'); -- error: '-1' is not a size: the character '-' is not a number (character 1); hint: a size is not negative
INSERT INTO checked VALUES (NULL), ('1 KB');
SELECT count(*) FROM checked; -- 2
INSERT INTO stored VALUES (NULL), ('2 KB');
SELECT bytes FROM stored; --
-- 2000
SELECT * FROM quotas ORDER BY quota COLLATE SIZE; -- c|12|12|12 B
-- a|1.5 KiB|1536|1.5 KiB
-- b|1 MB|1000000|1 MB
SELECT total FROM totals; -- 1001.548 KB
SELECT * FROM calls; -- 1001548|8012300|12|976.6 KiB|12 B|0
PRAGMA integrity_check; -- ok
EXPLAIN QUERY PLAN SELECT * FROM quotas WHERE quota = '1000 KB' COLLATE SIZE; -- QUERY PLAN
-- `--SEARCH quotas USING INDEX by_quota (quota=?)
EXPLAIN QUERY PLAN SELECT * FROM quotas WHERE size_parse(quota) > 1000; -- QUERY PLAN
-- `--SEARCH quotas USING INDEX by_parsed (<expr>>?)
EXPLAIN QUERY PLAN SELECT quota FROM quotas WHERE quota > '1' COLLATE SIZE ORDER BY quota COLLATE SIZE; -- QUERY PLAN
-- `--SEARCH quotas USING COVERING INDEX by_quota (quota>?)
SELECT name FROM quotas WHERE quota = '1000 KB' COLLATE SIZE; -- b
SELECT min(quota COLLATE SIZE), max(quota COLLATE SIZE) FROM quotas; -- 12|1 MB
SELECT name FROM quotas WHERE size_parse(quota) < 2000 ORDER BY 1; -- a
-- c
/* A table of quotas that are read by 1024, with the usage that was reported as texts, some of which are no sizes. */
CREATE TABLE users(
    name TEXT PRIMARY KEY, quota TEXT NOT NULL CHECK (size_explain(quota, 'binary') IS NULL),
    bytes INTEGER AS (size_parse(quota, 'binary')), used TEXT);
INSERT INTO users VALUES ('ann', '10m', '9 MB'), ('bob', '512K', '1,5 MB'), ('eve', '2G', '3 GB'), ('joe', '1G', NULL);
INSERT INTO users VALUES ('kim', '10mo', NULL); -- error: '10mo' is not a size: the character 'o' is incorrect ('B' or 'b' or no character is expected) (character 4)
SELECT name, size_pretty(bytes), size_pretty(size_try(used), 'decimal', 0) FROM users; -- ann|10.0 MiB|9 MB
-- bob|512.0 KiB|
-- eve|2.0 GiB|3 GB
-- joe|1.0 GiB|
SELECT name, size_explain(used) FROM users WHERE size_try(used) IS NULL AND used IS NOT NULL; -- bob|the character ',' is incorrect ('B', 'K', 'M', 'G', 'T', 'P', 'E', 'Z', 'Y' or 'R' or no character is expected) (character 2)
SELECT name FROM users WHERE size_try(used) > bytes; -- eve
SELECT size_pretty(size_sum(quota, 'binary'), 'binary', 2) FROM users; -- 3.01 GiB
SELECT name, size_sum(quota, 'binary') OVER (ORDER BY bytes) FROM users; -- bob|524288
-- ann|11010048
-- joe|1084751872
-- eve|3232235520
