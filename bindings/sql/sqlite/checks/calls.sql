/* Single calls. After each statement a comment has what it prints: a line each, or `error: ` and the message. */
SELECT size_parse(1536); -- 1536
SELECT size_parse('1 K', 'bits'); -- 1000
SELECT size_parse('1 KB', ' bits  ignore-case '); -- 8000
SELECT size_parse('1', ''); -- 1
SELECT size_parse(NULL) IS NULL, size_parse(NULL, 'binary') IS NULL, size_text(NULL, 3, 'bits') IS NULL; -- 1|1|1
SELECT size_parse(NULL, 'bogus'); -- error: 'bogus' has flags other than 'bits', 'ignore-case', 'binary' and 'words'
SELECT size_try(NULL, NULL); -- error: NULL is not a text of flags
SELECT size_explain(NULL, NULL); -- error: NULL is not a text of flags
SELECT size_sum(NULL, 'bogus'); -- error: 'bogus' has flags other than 'bits', 'ignore-case', 'binary' and 'words'
SELECT size_text(NULL, -1); -- error: -1 is not a precision: an INTEGER from 0 to 65535 is expected
SELECT size_in(NULL, 'KiB', 'binary'); -- error: 'binary' has flags other than 'bits' and 'ignore-case'
SELECT size_in(1, NULL, -1); -- error: -1 is not a precision: an INTEGER from 0 to 65535 is expected
SELECT size_pretty(NULL, 'iec'); -- error: 'iec' is not a type of units: 'binary', 'decimal' or 'both' is expected
SELECT size_explain(1536) IS NULL; -- 1
SELECT size_explain('10 EB') IS NULL; -- 1
SELECT size_explain(1.5); -- the REAL value 1.5 is not a size: TEXT or an INTEGER is expected
SELECT size_text(9223372036854775807); -- 9223372036854775.807 KB
SELECT size_text(1000, 'bits'); -- 1 Kb
SELECT size_text(1, 65535, 'bits'); -- 1 b
SELECT size_in(1, NULL) IS NULL; -- 1
SELECT size_in(1000, 'K', 'bits'); -- 1 Kb
SELECT length(size_in(1, 'KiB', 65535)); -- 65541
SELECT size_text('1536'), size_in('1' || hex(zeroblob(10)), 'ZB'), size_pretty('007'); -- 1.5 KiB|0.1 ZB|7 B
SELECT size_parse('8 Kb', 'binary'), size_parse('8 Kb', 'binary ignore-case'), size_parse('1 K', 'bits binary'); -- 1024|8192|1024
SELECT size_try('1.5 KiB'), size_try('10m', 'binary'), size_try(12), size_try(NULL) IS NULL; -- 1536|10485760|12|1
SELECT size_try('1 byte') IS NULL, size_try('10 EB') IS NULL, size_try(1.5) IS NULL, size_try(x'31') IS NULL, size_try(-1) IS NULL; -- 1|1|1|1|1
SELECT size_explain(char(12288) || '1 Ké'), size_explain('12 Ki😀', 'bits'); -- the character 'é' is incorrect ('B' or 'b' or no character is expected) (character 5)|the character '😀' is incorrect ('B' or 'b' or no character is expected) (character 6)
SELECT size_explain('1000.5 RB'); -- the value 1000.5 exceeds the valid range
SELECT size_pretty(NULL) IS NULL, size_pretty(0), size_pretty(1023), size_pretty(123456789); -- 1|0 B|1023 B|117.7 MiB
SELECT size_pretty(1000, 'decimal', 1, 'bits'), size_pretty(1, 'both', 65535), length(size_pretty(1024, 'binary', 65535)); -- 1.0 Kb|1 B|65541
SELECT size_pretty(1, NULL); -- error: NULL is not a type of units: 'binary', 'decimal' or 'both' is expected
SELECT size_pretty(1, 2); -- error: 2 is not a type of units: 'binary', 'decimal' or 'both' is expected
SELECT size_pretty(1, 'both', NULL); -- error: NULL is not a precision: an INTEGER from 0 to 65535 is expected
SELECT size_sum(column1), size_sum(column1, 'binary') FROM (VALUES ('1 KB'), (NULL), (12)); -- 1012|1036
SELECT size_sum(column1) IS NULL FROM (VALUES (NULL)); -- 1
SELECT size_sum(column1) IS NULL FROM (VALUES (1)) WHERE column1 > 1; -- 1
SELECT size_sum(column1), typeof(size_sum(column1)) FROM (VALUES (9223372036854775806), ('1')); -- 9223372036854775807|integer
SELECT size_sum(column1), typeof(size_sum(column1)) FROM (VALUES (9223372036854775807), ('1')); -- 9223372036854775808|text
SELECT size_sum(size_sum), size_text(size_sum(size_sum)) FROM (SELECT size_sum(column1) AS size_sum FROM (VALUES ('900 RB'), ('99 RB'))); -- 999000000000000000000000000000|999 RB
SELECT group_concat(s, ' ') FROM (SELECT size_sum(column1) OVER (ROWS 1 PRECEDING) AS s FROM (VALUES ('16 EiB'), ('16 EiB'), ('16 EiB'))); -- 18446744073709551616 36893488147419103232 36893488147419103232
SELECT size_sum(column1) FROM (VALUES ('1'), ('999999999999999999999999999999')); -- error: the sum of the sizes is 10^30 or more
SELECT size_sum(column1) FROM (VALUES ('999999999999999999999999999999'), ('2')); -- error: the sum of the sizes is 10^30 or more
SELECT size_sum(column1) FROM (VALUES ('999 RB'), ('999 RB'), ('1 x')); -- error: '1 x' is not a size: the character 'x' is incorrect ('B', 'K', 'M', 'G', 'T', 'P', 'E', 'Z', 'Y' or 'R' or no character is expected) (character 3)
SELECT size_sum(column1) FILTER (WHERE size_try(column1) > 0) FROM (VALUES ('1 KB'), ('1 x')); -- 1000
SELECT size_parse(1.5); -- error: the REAL value 1.5 is not a size: TEXT or an INTEGER is expected
SELECT size_parse(1.1); -- error: the REAL value 1.1 is not a size: TEXT or an INTEGER is expected
SELECT size_sum(column1) FROM (VALUES ('1'), (1.5)); -- error: the REAL value 1.5 is not a size: TEXT or an INTEGER is expected
SELECT size_sum(column1) FROM (VALUES ('1'), (x'31')); -- error: a BLOB of length 1 is not a size: TEXT or an INTEGER is expected
SELECT size_parse(x'3132'); -- error: a BLOB of length 2 is not a size: TEXT or an INTEGER is expected
SELECT size_parse(-5); -- error: '-5' is not a size: the character '-' is not a number (character 1); hint: a size is not negative
SELECT size_parse('1', 'bist'); -- error: 'bist' has flags other than 'bits', 'ignore-case', 'binary' and 'words'
SELECT size_try('1', 'Binary'); -- error: 'Binary' has flags other than 'bits', 'ignore-case', 'binary' and 'words'
SELECT size_sum('1', 'bin'); -- error: 'bin' has flags other than 'bits', 'ignore-case', 'binary' and 'words'
SELECT size_in(1, 'B', 'binary'); -- error: 'binary' has flags other than 'bits' and 'ignore-case'
SELECT size_pretty(1, 'both', 1, 'binary'); -- error: 'binary' has flags other than 'bits'
SELECT size_parse('1', 1); -- error: 1 is not a text of flags
SELECT size_parse('1', 'bits,ignore-case'); -- error: 'bits,ignore-case' has flags other than 'bits', 'ignore-case', 'binary' and 'words'
SELECT size_parse('1', NULL); -- error: NULL is not a text of flags
SELECT size_text('1.5 KiB'); -- error: '1.5 KiB' is not an INTEGER such as size_parse returns
SELECT size_text('-1'); -- error: '-1' is not an INTEGER such as size_parse returns
SELECT size_text('1' || hex(zeroblob(15))); -- error: '1000000000000000000000000000000' is not a size: the value 1000000000000000000000000000000 exceeds the valid range
SELECT size_text(1e3); -- error: the REAL value 1000.0 is not an INTEGER such as size_parse returns
SELECT size_text(-1); -- error: -1 is not a size: it is negative
SELECT size_text(1, -1); -- error: -1 is not a precision: an INTEGER from 0 to 65535 is expected
SELECT size_text(1, 65536); -- error: 65536 is not a precision: an INTEGER from 0 to 65535 is expected
SELECT size_text(1, 2.0); -- error: the REAL value 2.0 is not a precision: an INTEGER from 0 to 65535 is expected
SELECT size_text(1, NULL); -- error: NULL is not a precision: an INTEGER from 0 to 65535 is expected
SELECT size_in(1, x'4b'); -- error: a BLOB of length 1 is not a unit such as 'KiB' or 'MB'
SELECT size_text(1, 'ignore-case'); -- error: 'ignore-case' has flags other than 'bits'
SELECT size_text(1, 'bits', 2); -- error: 2 is after the flags, where no argument is expected
SELECT size_in(1, 'x'); -- error: 'x' is not a unit: the character 'x' is incorrect ('B', 'K', 'M', 'G', 'T', 'P', 'E', 'Z', 'Y' or 'R' or no character is expected) (character 1)
SELECT size_in(1, 'K"'); -- error: 'K"' is not a unit: the character '"' is incorrect ('B' or 'b' or no character is expected) (character 2)
SELECT size_in(1, 'KiX', 'ignore-case'); -- error: 'KiX' is not a unit: the character 'X' is incorrect ('B' or no character is expected) (character 3)
SELECT size_in(1, char(27) || 'MB'); -- error: '\u{1b}MB' is not a unit: the character '\u{1b}' is incorrect ('B', 'K', 'M', 'G', 'T', 'P', 'E', 'Z', 'Y' or 'R' or no character is expected) (character 1)
SELECT size_in(1, CAST(x'4bff' AS TEXT)); -- error: 'K\xff' is not a unit: the text is not UTF-8
SELECT size_in(1, ''); -- error: '' is not a unit such as 'KiB' or 'MB'
SELECT size_in(1, ' '); -- error: ' ' is not a unit such as 'KiB' or 'MB'
SELECT size_in(1, char(9, 133, 12288), 'bits'); -- error: '\u{9}\u{85}\u{3000}' is not a unit such as 'KiB' or 'MB'
SELECT size_parse('1' || char(10) || '2'); -- error: '1\u{a}2' is not a size: the character '\n' is incorrect ('B', 'K', 'M', 'G', 'T', 'P', 'E', 'Z', 'Y' or 'R' or no character is expected) (character 2)
SELECT size_parse(char(9, 13, 10, 27, 133, 160) || 'x'); -- error: '\u{9}\u{d}\u{a}\u{1b}\u{85}\u{a0}x' is not a size: the character '\u{1b}' is not a number (character 4)
SELECT size_parse(replace(hex(zeroblob(78)), '00', 'x') || char(159, 120)); -- error: 'xxxxxxxxxxxxxxxxxxxxxxxxxxxxxxxxxxxxxxxxxxxxxxxxxxxxxxxxxxxxxxxxxxxxxxxxxxxxxx\u{9f}..' is not a size: the character 'x' is not a number (character 1)
SELECT size_parse(replace(hex(zeroblob(79)), '00', 'x') || char(159, 120)); -- error: 'xxxxxxxxxxxxxxxxxxxxxxxxxxxxxxxxxxxxxxxxxxxxxxxxxxxxxxxxxxxxxxxxxxxxxxxxxxxxxxx..' is not a size: the character 'x' is not a number (character 1)
SELECT size_parse('x' || replace(hex(zeroblob(300)), '00', 'é')); -- error: 'xééééééééééééééééééééééééééééééééééééééé..' is not a size: the character 'x' is not a number (character 1)
SELECT size_parse('x' || replace(hex(zeroblob(300)), '00', '😀')); -- error: 'x😀😀😀😀😀😀😀😀😀😀😀😀😀😀😀😀😀😀😀..' is not a size: the character 'x' is not a number (character 1)
SELECT size_parse(replace(hex(zeroblob(41)), '00', '12')); -- error: '12121212121212121212121212121212121212121212121212121212121212121212121212121212..' is not a size: value number is too long (character 35)
SELECT size_parse(CAST(x'31ff' AS TEXT)); -- error: '1\xff' is not a size: the text is not UTF-8
SELECT size_parse(CAST(x'31c285ff' AS TEXT)); -- error: '1\xc2\x85\xff' is not a size: the text is not UTF-8
SELECT size_parse('5 bytes'); -- error: '5 bytes' is not a size: the character 'y' is incorrect ('i' or no character is expected) (character 4); hint: write 'B', or read it with the option 'words'
SELECT size_parse('5 byte s', 'words'); -- error: '5 byte s' is not a size: the character 'y' is incorrect ('i' or no character is expected) (character 4)
SELECT size_parse('1 Mbps', 'words'); -- error: '1 Mbps' is not a size: the character 'p' is incorrect ('i' or no character is expected) (character 5); hint: a size has no rate: leave out what it is per second
SELECT size_sum(column1, 'words') FROM (VALUES ('5 bytes'), ('2 gigs')); -- error: '2 gigs' is not a size: the character 'g' is incorrect ('B' or 'b' or no character is expected) (character 5); hint: write 'GB'
SELECT size_parse('1000000 RONNABYTES', 'words'); -- error: '1000000 RONNABYTES' is not a size: the value 1000000 exceeds the valid range
SELECT size_parse('8 kilobits', 'bits words'), size_explain('5 bytes', 'words') IS NULL; -- 8000|1
