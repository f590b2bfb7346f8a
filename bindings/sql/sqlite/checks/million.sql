/* The rows `0.000 MB` to `999.999 MB`, each once in an order of its own: 7919 and 1000000 have no common factor. After
   each SELECT a comment has what it prints. */
CREATE TABLE big(t TEXT, n INTEGER);
INSERT INTO big WITH RECURSIVE i(k) AS (SELECT 0 UNION ALL SELECT k + 1 FROM i WHERE k < 999999)
    SELECT printf('%d.%03d MB', k * 7919 % 1000000 / 1000, k * 7919 % 1000), k FROM i;
SELECT sum(length(t)) FROM big; -- 9890000
SELECT sum(size_parse(t)) FROM big; -- 499999500000000
SELECT count(*) FROM big WHERE size_explain(t) IS NULL; -- 1000000
SELECT count(size_text(n)) FROM big; -- 1000000
