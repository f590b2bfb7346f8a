-- What the extension answers: calls, each with its answer beside it, and statements, whose answers are in
-- expected/byte_unit.out.
CREATE EXTENSION byte_unit;
\set ECHO none
\pset format unaligned
\pset tuples_only on
-- Returns what a query returns, or the SQLSTATE, the message, the detail and the hint of its error.
CREATE FUNCTION tried(query text) RETURNS text LANGUAGE plpgsql AS $$
DECLARE result text; detail text; hint text;
BEGIN
    EXECUTE query INTO result;
    RETURN result;
EXCEPTION WHEN OTHERS THEN
    GET STACKED DIAGNOSTICS detail = PG_EXCEPTION_DETAIL, hint = PG_EXCEPTION_HINT;
    hint := coalesce(' Hint: ' || nullif(hint, ''), '');
    RETURN replace(SQLSTATE || ' ' || SQLERRM || ': ' || detail || hint, E'\r', ' ');
END $$;
CREATE TABLE calls(call text, answer text);
-- Input and output.
INSERT INTO calls VALUES
    ($$'1.5 KiB'::bytesize$$, '1.5 KiB'), ($$' 1536 '::bytesize$$, '1.5 KiB'), ($$'8 kb'::bytesize$$, '1 KB'),
    ($$'999999999999999999999999999999'::bytesize$$, '999999999999999999999999999.999 KB'),
    ($$'9007199254740993 B'::bytesize = '9007199254740992 B'::bytesize$$, 'false'), ($$pg_column_size('1 KB'::bytesize)$$, '16'),
    ($$'1 Ké'::bytesize$$, '22P02 invalid input syntax for type bytesize: "1 Ké": The character ''é'' is incorrect (''B'' or ''b'' or no character is expected) (character 4).'),
    ($$''::bytesize$$, '22P02 invalid input syntax for type bytesize: "": No value can be found (at the end of the text). Hint: a size begins with a number as in ''12'' or ''1.5'''),
    ($$'1000 RB'::bytesize$$, '22003 invalid input syntax for type bytesize: "1000 RB": The value 1000 exceeds the valid range.'),
    ($$('x' || repeat('é', 40))::bytesize$$, '22P02 invalid input syntax for type bytesize: "xééééééééééééééééééééééééééééééééééééééé..": The character ''x'' is not a number (character 1).');
-- Sizes in words, and hints.
INSERT INTO calls VALUES
    ($$'5 bytes'::bytesize$$, '22P02 invalid input syntax for type bytesize: "5 bytes": The character ''y'' is incorrect (''i'' or no character is expected) (character 4). Hint: write ''B'', or read it with the option ''words'''),
    ($$size_parse('5 byte s', 'words')$$, '22P02 invalid input syntax for type bytesize: "5 byte s": The character ''y'' is incorrect (''i'' or no character is expected) (character 4).'),
    ($$size_parse('1 Mbps', 'words')$$, '22P02 invalid input syntax for type bytesize: "1 Mbps": The character ''p'' is incorrect (''i'' or no character is expected) (character 5). Hint: a size has no rate: leave out what it is per second'),
    ($$size_parse('-1')$$, '22P02 invalid input syntax for type bytesize: "-1": The character ''-'' is not a number (character 1). Hint: a size is not negative'),
    ($$size_parse('1000000 RONNABYTES', 'words')$$, '22003 invalid input syntax for type bytesize: "1000000 RONNABYTES": The value 1000000 exceeds the valid range.'),
    ($$concat_ws('|', size_parse('64 kB', 'words binary'), size_explain('5 bytes', 'words'))$$, '64 KiB');
-- Texts of 8, 16 and 32 bytes, which fill what the server allocates for them, one after another.
INSERT INTO calls VALUES
    ($$array_agg(t::bytesize)::text FROM unnest('{1.25 KiB,1.25 MiB,1.25 GiB}'::text[]) AS t$$, '{"1.25 KiB","1.25 MiB","1.25 GiB"}'),
    ($$array_agg(t::bytesize)::text FROM unnest('{123456789.123 KB,123456789.124 KB}'::text[]) AS t$$, '{"123456789.123 KB","123456789.124 KB"}'),
    ($$array_agg(t::bytesize)::text FROM unnest('{1234567890123456789012345.678 KB,1234567890123456789012345.679 KB}'::text[]) AS t$$, '{"1234567890123456789012345.678 KB","1234567890123456789012345.679 KB"}');
-- The functions, but for the calls that SQLite's extension answers, too.
INSERT INTO calls VALUES
    ($$concat_ws('|', size_parse(NULL), size_try(NULL), size_explain(NULL), size_text(NULL), size_in(NULL, 'KiB'), size_pretty(NULL))$$, ''),
    ($$size_explain('1 KB')$$, NULL), ($$length(size_in('1'::bytesize, 'KiB', 65535))$$, '65541'),
    ($$size_explain('1 Kb!', ' ignore-case ')$$, 'the character ''!'' is incorrect (''i'' or no character is expected) (character 5)'),
    ($$size_parse('1', NULL)$$, '22004 flags cannot be NULL: '), ($$size_explain(NULL, NULL)$$, '22004 flags cannot be NULL: '),
    ($$size_explain('1', 'bits')$$, '22023 "bits" has flags other than ignore-case, binary and words: '),
    ($$size_parse(NULL, 'bogus')$$, '22023 "bogus" has flags other than ignore-case, binary and words: '),
    ($$size_in('1'::bytesize, 'K', 'binary')$$, '22023 "binary" has flags other than ignore-case: '),
    ($$size_text(NULL, -1)$$, '22023 -1 is not a precision: an integer from 0 to 65535 is expected: '),
    ($$size_text('1'::bytesize, 65536)$$, '22023 65536 is not a precision: an integer from 0 to 65535 is expected: '),
    ($$size_pretty(NULL, 'both', NULL)$$, '22004 the precision cannot be NULL: '),
    ($$size_pretty('1', 'bits')$$, '22023 "bits" is not a unit type: binary, decimal or both is expected: '),
    ($$size_pretty('1', NULL)$$, '22004 the unit type cannot be NULL: '),
    ($$concat_ws('|', size_pretty(1536), size_pretty(1536::bigint, 'decimal'), size_pretty(7::smallint), size_pretty(1e30 - 1, 'both', 0), size_pretty(0.5))$$, '1.5 KiB|1.5 KB|7 B|808 RiB|1 B'),
    ($$concat_ws('|', size_pretty('1.5 KiB'), size_pretty('2 MB'::text, 'decimal', 2), size_pretty(NULL::text), size_pretty(NULL::bigint))$$, '1.5 KiB|2.00 MB'),
    ($$size_pretty(-1)$$, '22003 bytesize out of range: A size is not negative and less than 10^30 bytes.'),
    ($$size_in('1'::bytesize, 'KiX')$$, '22023 "KiX" is not a unit: The character ''X'' is incorrect (''B'' or ''b'' or no character is expected) (character 3).'),
    ($$size_in('1'::bytesize, ' ')$$, '22023 " " is not a unit such as KiB or MB: ');
-- Casts, and comparisons with numbers: no operator makes another ambiguous.
INSERT INTO calls VALUES
    ($$concat_ws('|', 1536::bytesize, 9223372036854775807::bytesize, 1.2::bytesize, 99999999999999999999.5::bytesize)$$, '1.5 KiB|9223372036854775.807 KB|2 B|100 EB'),
    ($$concat_ws('|', '1 KiB'::bytesize::numeric, '1 KiB'::bytesize::bigint, 5::smallint::bytesize, '2147483647'::bytesize::integer)$$, '1024|1024|5 B|2147483647'),
    ($$(-1)::bytesize$$, '22003 bytesize out of range: A size is not negative and less than 10^30 bytes.'),
    ($$concat(tried('SELECT (-0.5)::bytesize') = a, tried('SELECT ''NaN''::numeric::bytesize') = a, tried('SELECT 1e30::bytesize') = a, tried('SELECT (-5)::smallint::bytesize') = a) FROM tried('SELECT (-1)::bytesize') AS a$$, 'tttt'),
    ($$'10 EB'::bytesize::bigint$$, '22003 bigint out of range: '), ($$'2147483648'::bytesize::integer$$, '22003 integer out of range: '),
    ($$concat('1 KB'::bytesize > 999, 1000 = '1 KB'::bytesize, '1 KB'::bytesize < 1000.5, -1 < '0'::bytesize, '1 KB'::bytesize >= 'NaN'::numeric, (NULL::bytesize > -1) IS NULL)$$, 'ttttft'),
    ($$concat('1 KB'::bytesize BETWEEN 1 AND 1e3, '1 KB'::bytesize IN (5, 1000), '1 KB'::bytesize = ANY('{5,1000}'::smallint[]), '1 KB'::bytesize <> 1e30)$$, 'tttt'),
    ($$concat_ws('|', '1 KB'::bytesize > '1 B', '1 B' < '1 KB'::bytesize, 2 * 1.5, '1 KB'::bytesize / 2, '1 KB'::bytesize / '2')$$, 't|t|3.0|500 B|500.0000000000000000');
-- Calculations and aggregates.
INSERT INTO calls VALUES
    ($$concat_ws('|', '1 KiB'::bytesize + '1 B', '1 KiB'::bytesize - '24 B', '1 KiB'::bytesize * 1.5, 3 * '1 KiB'::bytesize, 0.0001 * '1 KB'::bytesize)$$, '1.025 KB|1 KB|1.5 KiB|3 KiB|1 B'),
    ($$concat_ws('|', '1 GB'::bytesize / 3, '1 KB'::bytesize / 0.3, '1 GiB'::bytesize / '1 MiB'::bytesize)$$, '333333.333 KB|3.333 KB|1024.0000000000000000'),
    ($$concat(tried(q) = a) FROM tried('SELECT (-1)::bytesize') AS a, (VALUES ('SELECT ''1 B''::bytesize - ''2 B'''), ('SELECT ''1 B''::bytesize * -1'), ('SELECT ''999 RB''::bytesize + ''999 RB''')) AS queries(q)$$, 't'),
    ($$'1 B'::bytesize / 0$$, '22012 division by zero: '), ($$'1 B'::bytesize / '0 B'::bytesize$$, '22012 division by zero: '),
    ($$concat_ws('|', count(*), sum(x::bytesize), avg(x::bytesize), min(x::bytesize), max(x::bytesize)) FROM generate_series(1, 1000) AS x$$, '1000|500.5 KB|500 B|1 B|1 KB'),
    ($$concat(sum(x::bytesize) IS NULL, avg(x::bytesize) IS NULL, max(x::bytesize) IS NULL) FROM generate_series(1, 0) AS x$$, 'ttt'),
    ($$avg(x) FROM (VALUES ('1 B'::bytesize), (NULL), ('2 B')) AS rows(x)$$, '1 B'),
    ($$concat_ws('|', avg(x), sum(x), min(x), max(x)) FROM (VALUES ('0 B'::bytesize), ('3 B'), ('0 B')) AS rows(x)$$, '1 B|3 B|0 B|3 B'),
    ($$avg('999999999999999999999999999999'::bytesize) FROM generate_series(1, 2000)$$, '999999999999999999999999999.999 KB'),
    ($$string_agg(s::text, ' ') FROM (SELECT sum(x::bytesize) OVER (ORDER BY x) AS s FROM generate_series(1, 4) AS x) AS sums$$, '1 B 3 B 6 B 10 B');
SELECT count(*) AS asked, string_agg(call || ' = ' || found, E'\n') FILTER (WHERE found IS DISTINCT FROM answer) AS wrong
    FROM (SELECT *, tried('SELECT ' || call) AS found FROM calls) AS answered;
-- Assignments.
CREATE TABLE assigned(size bytesize);
INSERT INTO assigned VALUES (1024), ('1 KB'), (5000000000);
INSERT INTO assigned SELECT 7::smallint;
INSERT INTO assigned VALUES (1.5);
SELECT * FROM assigned ORDER BY size;
-- Indexes.
CREATE TABLE sizes(id int, size bytesize);
INSERT INTO sizes SELECT x, (x % 5000)::bytesize FROM generate_series(1, 20000) AS x;
ANALYZE sizes;
CREATE INDEX sizes_btree ON sizes(size);
SET enable_seqscan = off;
SET enable_bitmapscan = off;
EXPLAIN (COSTS OFF) SELECT count(*) FROM sizes WHERE size = '4999 B';
SELECT count(*) FROM sizes WHERE size < '1 KB';
EXPLAIN (COSTS OFF) SELECT count(*) FROM sizes WHERE 1000 > size;
SELECT max(size), min(size) FROM sizes;
DROP INDEX sizes_btree;
CREATE INDEX sizes_hash ON sizes USING hash(size);
EXPLAIN (COSTS OFF) SELECT count(*) FROM sizes WHERE size = '4999 B';
SELECT count(*) FROM sizes WHERE size = '4999 B';
DROP INDEX sizes_hash;
SET enable_bitmapscan = on;
CREATE INDEX sizes_brin ON sizes USING brin(size) WITH (pages_per_range = 1);
EXPLAIN (COSTS OFF) SELECT count(*) FROM sizes WHERE size > '4999 B';
SELECT count(*) FROM sizes WHERE size >= '4999 B';
SET enable_seqscan = on;
SELECT count(DISTINCT size), count(*) FROM sizes;
SELECT amname, opcname, amvalidate(c.oid) FROM pg_opclass c JOIN pg_am a ON a.oid = opcmethod
    WHERE opcintype = 'bytesize'::regtype ORDER BY 1;
