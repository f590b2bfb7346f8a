\echo Use CREATE EXTENSION byte_unit to load this file. \quit
-- What CREATE EXTENSION runs: the type bytesize, with functions, casts, operators, indexes and aggregates of byte_unit.so.

CREATE TYPE bytesize;
CREATE FUNCTION bytesize_in(cstring) RETURNS bytesize
    AS 'MODULE_PATHNAME' LANGUAGE C IMMUTABLE STRICT PARALLEL SAFE;
CREATE FUNCTION bytesize_out(bytesize) RETURNS cstring
    AS 'MODULE_PATHNAME' LANGUAGE C IMMUTABLE STRICT PARALLEL SAFE;
CREATE FUNCTION bytesize_recv(internal) RETURNS bytesize
    AS 'MODULE_PATHNAME' LANGUAGE C IMMUTABLE STRICT PARALLEL SAFE;
CREATE FUNCTION bytesize_send(bytesize) RETURNS bytea
    AS 'MODULE_PATHNAME' LANGUAGE C IMMUTABLE STRICT PARALLEL SAFE;
CREATE TYPE bytesize (
    INPUT = bytesize_in, OUTPUT = bytesize_out, RECEIVE = bytesize_recv, SEND = bytesize_send,
    INTERNALLENGTH = 16, ALIGNMENT = double, STORAGE = plain);
COMMENT ON TYPE bytesize IS 'a number of bytes, less than 10^30, such as 1.5 KiB';

-- Functions by the names of SQLite's extension. Only the text or the size may be NULL, and then so is the result. They are
-- not STRICT, since NULL in another argument is an error.
CREATE FUNCTION size_parse(text, flags text DEFAULT '') RETURNS bytesize
    AS 'MODULE_PATHNAME' LANGUAGE C IMMUTABLE PARALLEL SAFE;
CREATE FUNCTION size_try(text, flags text DEFAULT '') RETURNS bytesize
    AS 'MODULE_PATHNAME' LANGUAGE C IMMUTABLE PARALLEL SAFE;
CREATE FUNCTION size_explain(text, flags text DEFAULT '') RETURNS text
    AS 'MODULE_PATHNAME' LANGUAGE C IMMUTABLE PARALLEL SAFE;
CREATE FUNCTION size_text(bytesize) RETURNS text
    AS 'MODULE_PATHNAME' LANGUAGE C IMMUTABLE PARALLEL SAFE;
CREATE FUNCTION size_text(bytesize, "precision" integer) RETURNS text
    AS 'MODULE_PATHNAME' LANGUAGE C IMMUTABLE PARALLEL SAFE;
CREATE FUNCTION size_in(bytesize, unit text, "precision" integer, flags text DEFAULT '') RETURNS text
    AS 'MODULE_PATHNAME' LANGUAGE C IMMUTABLE PARALLEL SAFE;
CREATE FUNCTION size_in(bytesize, unit text, flags text DEFAULT '') RETURNS text
    AS 'MODULE_PATHNAME', 'size_in_with_flags' LANGUAGE C IMMUTABLE PARALLEL SAFE;
CREATE FUNCTION size_pretty(bytesize, unit_type text DEFAULT 'binary', places integer DEFAULT 1) RETURNS text
    AS 'MODULE_PATHNAME' LANGUAGE C IMMUTABLE PARALLEL SAFE;
-- Casts: on assignment where no size changes, explicit where one may be rounded up or out of range. None is implicit:
-- with one from integer, `integer * numeric` would be ambiguous.
CREATE FUNCTION bytesize(smallint) RETURNS bytesize
    AS 'MODULE_PATHNAME', 'bytesize_from_int2' LANGUAGE C IMMUTABLE STRICT PARALLEL SAFE;
CREATE FUNCTION bytesize(integer) RETURNS bytesize
    AS 'MODULE_PATHNAME', 'bytesize_from_int4' LANGUAGE C IMMUTABLE STRICT PARALLEL SAFE;
CREATE FUNCTION bytesize(bigint) RETURNS bytesize
    AS 'MODULE_PATHNAME', 'bytesize_from_int8' LANGUAGE C IMMUTABLE STRICT PARALLEL SAFE;
CREATE FUNCTION bytesize(numeric) RETURNS bytesize
    AS 'MODULE_PATHNAME', 'bytesize_from_numeric' LANGUAGE C IMMUTABLE STRICT PARALLEL SAFE;
CREATE FUNCTION "int4"(bytesize) RETURNS integer
    AS 'MODULE_PATHNAME', 'bytesize_to_int4' LANGUAGE C IMMUTABLE STRICT PARALLEL SAFE;
CREATE FUNCTION "int8"(bytesize) RETURNS bigint
    AS 'MODULE_PATHNAME', 'bytesize_to_int8' LANGUAGE C IMMUTABLE STRICT PARALLEL SAFE;
CREATE FUNCTION "numeric"(bytesize) RETURNS numeric
    AS 'MODULE_PATHNAME', 'bytesize_to_numeric' LANGUAGE C IMMUTABLE STRICT PARALLEL SAFE;
CREATE CAST (smallint AS bytesize) WITH FUNCTION bytesize(smallint) AS ASSIGNMENT;
CREATE CAST (integer AS bytesize) WITH FUNCTION bytesize(integer) AS ASSIGNMENT;
CREATE CAST (bigint AS bytesize) WITH FUNCTION bytesize(bigint) AS ASSIGNMENT;
CREATE CAST (numeric AS bytesize) WITH FUNCTION bytesize(numeric);
CREATE CAST (bytesize AS integer) WITH FUNCTION "int4"(bytesize);
CREATE CAST (bytesize AS bigint) WITH FUNCTION "int8"(bytesize);
CREATE CAST (bytesize AS numeric) WITH FUNCTION "numeric"(bytesize) AS ASSIGNMENT;

-- size_pretty of each exact number, since an integer is cast to numeric; and of a text, since with these two functions
-- alone a constant in quotes would be ambiguous.
CREATE FUNCTION size_pretty(numeric, unit_type text DEFAULT 'binary', places integer DEFAULT 1) RETURNS text
    LANGUAGE SQL IMMUTABLE PARALLEL SAFE RETURN size_pretty($1::bytesize, unit_type, places);
CREATE FUNCTION size_pretty(text, unit_type text DEFAULT 'binary', places integer DEFAULT 1) RETURNS text
    LANGUAGE SQL IMMUTABLE PARALLEL SAFE RETURN size_pretty(size_parse($1), unit_type, places);

-- Order. A comparison or a hash tells nothing but its result, so it is LEAKPROOF. The numbers in an operator class are
-- those by which its kind of index calls operators and functions. Equal sizes have equal bytes: btequalimage.
CREATE FUNCTION bytesize_eq(bytesize, bytesize) RETURNS boolean
    AS 'MODULE_PATHNAME' LANGUAGE C IMMUTABLE STRICT LEAKPROOF PARALLEL SAFE;
CREATE FUNCTION bytesize_ne(bytesize, bytesize) RETURNS boolean
    AS 'MODULE_PATHNAME' LANGUAGE C IMMUTABLE STRICT LEAKPROOF PARALLEL SAFE;
CREATE FUNCTION bytesize_lt(bytesize, bytesize) RETURNS boolean
    AS 'MODULE_PATHNAME' LANGUAGE C IMMUTABLE STRICT LEAKPROOF PARALLEL SAFE;
CREATE FUNCTION bytesize_le(bytesize, bytesize) RETURNS boolean
    AS 'MODULE_PATHNAME' LANGUAGE C IMMUTABLE STRICT LEAKPROOF PARALLEL SAFE;
CREATE FUNCTION bytesize_gt(bytesize, bytesize) RETURNS boolean
    AS 'MODULE_PATHNAME' LANGUAGE C IMMUTABLE STRICT LEAKPROOF PARALLEL SAFE;
CREATE FUNCTION bytesize_ge(bytesize, bytesize) RETURNS boolean
    AS 'MODULE_PATHNAME' LANGUAGE C IMMUTABLE STRICT LEAKPROOF PARALLEL SAFE;
CREATE FUNCTION bytesize_cmp(bytesize, bytesize) RETURNS integer
    AS 'MODULE_PATHNAME' LANGUAGE C IMMUTABLE STRICT LEAKPROOF PARALLEL SAFE;
CREATE FUNCTION bytesize_hash(bytesize) RETURNS integer
    AS 'MODULE_PATHNAME' LANGUAGE C IMMUTABLE STRICT LEAKPROOF PARALLEL SAFE;
CREATE FUNCTION bytesize_hash_extended(bytesize, bigint) RETURNS bigint
    AS 'MODULE_PATHNAME' LANGUAGE C IMMUTABLE STRICT LEAKPROOF PARALLEL SAFE;
CREATE FUNCTION bytesize_sortsupport(internal) RETURNS void
    AS 'MODULE_PATHNAME' LANGUAGE C IMMUTABLE STRICT PARALLEL SAFE;
CREATE FUNCTION bytesize_smaller(bytesize, bytesize) RETURNS bytesize
    AS 'MODULE_PATHNAME' LANGUAGE C IMMUTABLE STRICT PARALLEL SAFE;
CREATE FUNCTION bytesize_larger(bytesize, bytesize) RETURNS bytesize
    AS 'MODULE_PATHNAME' LANGUAGE C IMMUTABLE STRICT PARALLEL SAFE;
CREATE OPERATOR = (LEFTARG = bytesize, RIGHTARG = bytesize, FUNCTION = bytesize_eq, COMMUTATOR = =,
    NEGATOR = <>, RESTRICT = eqsel, JOIN = eqjoinsel, HASHES, MERGES);
CREATE OPERATOR <> (LEFTARG = bytesize, RIGHTARG = bytesize, FUNCTION = bytesize_ne, COMMUTATOR = <>,
    NEGATOR = =, RESTRICT = neqsel, JOIN = neqjoinsel);
CREATE OPERATOR < (LEFTARG = bytesize, RIGHTARG = bytesize, FUNCTION = bytesize_lt, COMMUTATOR = >,
    NEGATOR = >=, RESTRICT = scalarltsel, JOIN = scalarltjoinsel);
CREATE OPERATOR <= (LEFTARG = bytesize, RIGHTARG = bytesize, FUNCTION = bytesize_le, COMMUTATOR = >=,
    NEGATOR = >, RESTRICT = scalarlesel, JOIN = scalarlejoinsel);
CREATE OPERATOR > (LEFTARG = bytesize, RIGHTARG = bytesize, FUNCTION = bytesize_gt, COMMUTATOR = <,
    NEGATOR = <=, RESTRICT = scalargtsel, JOIN = scalargtjoinsel);
CREATE OPERATOR >= (LEFTARG = bytesize, RIGHTARG = bytesize, FUNCTION = bytesize_ge, COMMUTATOR = <=,
    NEGATOR = <, RESTRICT = scalargesel, JOIN = scalargejoinsel);
CREATE OPERATOR CLASS bytesize_ops DEFAULT FOR TYPE bytesize USING btree AS
    OPERATOR 1 <, OPERATOR 2 <=, OPERATOR 3 =, OPERATOR 4 >=, OPERATOR 5 >,
    FUNCTION 1 bytesize_cmp(bytesize, bytesize), FUNCTION 2 bytesize_sortsupport(internal),
    FUNCTION 4 btequalimage(oid);
CREATE OPERATOR CLASS bytesize_ops DEFAULT FOR TYPE bytesize USING hash AS
    OPERATOR 1 =, FUNCTION 1 bytesize_hash(bytesize), FUNCTION 2 bytesize_hash_extended(bytesize, bigint);
CREATE OPERATOR CLASS bytesize_minmax_ops DEFAULT FOR TYPE bytesize USING brin AS
    OPERATOR 1 <, OPERATOR 2 <=, OPERATOR 3 =, OPERATOR 4 >=, OPERATOR 5 >,
    FUNCTION 1 brin_minmax_opcinfo(internal),
    FUNCTION 2 brin_minmax_add_value(internal, internal, internal, internal),
    FUNCTION 3 brin_minmax_consistent(internal, internal, internal),
    FUNCTION 4 brin_minmax_union(internal, internal, internal);

-- Comparisons with numbers, exact also if the number is negative or has a fraction. The planner replaces a call by its
-- body, so a comparison with a constant that is a size becomes one of two sizes, for which an index can be used.
CREATE FUNCTION bytesize_holds(numeric) RETURNS boolean LANGUAGE SQL IMMUTABLE PARALLEL SAFE
    RETURN $1 >= 0 AND $1 < 1e30 AND $1 = trunc($1);
CREATE FUNCTION bytesize_eq(bytesize, numeric) RETURNS boolean LANGUAGE SQL IMMUTABLE PARALLEL SAFE
    RETURN CASE WHEN bytesize_holds($2) THEN $1 = $2::bytesize ELSE $1::numeric = $2 END;
CREATE FUNCTION bytesize_ne(bytesize, numeric) RETURNS boolean LANGUAGE SQL IMMUTABLE PARALLEL SAFE
    RETURN CASE WHEN bytesize_holds($2) THEN $1 <> $2::bytesize ELSE $1::numeric <> $2 END;
CREATE FUNCTION bytesize_lt(bytesize, numeric) RETURNS boolean LANGUAGE SQL IMMUTABLE PARALLEL SAFE
    RETURN CASE WHEN bytesize_holds($2) THEN $1 < $2::bytesize ELSE $1::numeric < $2 END;
CREATE FUNCTION bytesize_le(bytesize, numeric) RETURNS boolean LANGUAGE SQL IMMUTABLE PARALLEL SAFE
    RETURN CASE WHEN bytesize_holds($2) THEN $1 <= $2::bytesize ELSE $1::numeric <= $2 END;
CREATE FUNCTION bytesize_gt(bytesize, numeric) RETURNS boolean LANGUAGE SQL IMMUTABLE PARALLEL SAFE
    RETURN CASE WHEN bytesize_holds($2) THEN $1 > $2::bytesize ELSE $1::numeric > $2 END;
CREATE FUNCTION bytesize_ge(bytesize, numeric) RETURNS boolean LANGUAGE SQL IMMUTABLE PARALLEL SAFE
    RETURN CASE WHEN bytesize_holds($2) THEN $1 >= $2::bytesize ELSE $1::numeric >= $2 END;
CREATE OPERATOR = (LEFTARG = bytesize, RIGHTARG = numeric, FUNCTION = bytesize_eq);
CREATE OPERATOR <> (LEFTARG = bytesize, RIGHTARG = numeric, FUNCTION = bytesize_ne);
CREATE OPERATOR < (LEFTARG = bytesize, RIGHTARG = numeric, FUNCTION = bytesize_lt);
CREATE OPERATOR <= (LEFTARG = bytesize, RIGHTARG = numeric, FUNCTION = bytesize_le);
CREATE OPERATOR > (LEFTARG = bytesize, RIGHTARG = numeric, FUNCTION = bytesize_gt);
CREATE OPERATOR >= (LEFTARG = bytesize, RIGHTARG = numeric, FUNCTION = bytesize_ge);
CREATE FUNCTION bytesize_eq(numeric, bytesize) RETURNS boolean LANGUAGE SQL IMMUTABLE PARALLEL SAFE RETURN $2 = $1;
CREATE FUNCTION bytesize_ne(numeric, bytesize) RETURNS boolean LANGUAGE SQL IMMUTABLE PARALLEL SAFE RETURN $2 <> $1;
CREATE FUNCTION bytesize_lt(numeric, bytesize) RETURNS boolean LANGUAGE SQL IMMUTABLE PARALLEL SAFE RETURN $2 > $1;
CREATE FUNCTION bytesize_le(numeric, bytesize) RETURNS boolean LANGUAGE SQL IMMUTABLE PARALLEL SAFE RETURN $2 >= $1;
CREATE FUNCTION bytesize_gt(numeric, bytesize) RETURNS boolean LANGUAGE SQL IMMUTABLE PARALLEL SAFE RETURN $2 < $1;
CREATE FUNCTION bytesize_ge(numeric, bytesize) RETURNS boolean LANGUAGE SQL IMMUTABLE PARALLEL SAFE RETURN $2 <= $1;
CREATE OPERATOR = (LEFTARG = numeric, RIGHTARG = bytesize, FUNCTION = bytesize_eq);
CREATE OPERATOR <> (LEFTARG = numeric, RIGHTARG = bytesize, FUNCTION = bytesize_ne);
CREATE OPERATOR < (LEFTARG = numeric, RIGHTARG = bytesize, FUNCTION = bytesize_lt);
CREATE OPERATOR <= (LEFTARG = numeric, RIGHTARG = bytesize, FUNCTION = bytesize_le);
CREATE OPERATOR > (LEFTARG = numeric, RIGHTARG = bytesize, FUNCTION = bytesize_gt);
CREATE OPERATOR >= (LEFTARG = numeric, RIGHTARG = bytesize, FUNCTION = bytesize_ge);

-- Calculations.
CREATE FUNCTION bytesize_add(bytesize, bytesize) RETURNS bytesize
    AS 'MODULE_PATHNAME' LANGUAGE C IMMUTABLE STRICT PARALLEL SAFE;
CREATE FUNCTION bytesize_subtract(bytesize, bytesize) RETURNS bytesize
    AS 'MODULE_PATHNAME' LANGUAGE C IMMUTABLE STRICT PARALLEL SAFE;
CREATE FUNCTION bytesize_times_numeric(bytesize, numeric) RETURNS bytesize
    AS 'MODULE_PATHNAME' LANGUAGE C IMMUTABLE STRICT PARALLEL SAFE;
CREATE FUNCTION numeric_times_bytesize(numeric, bytesize) RETURNS bytesize
    AS 'MODULE_PATHNAME' LANGUAGE C IMMUTABLE STRICT PARALLEL SAFE;
CREATE FUNCTION bytesize_by_numeric(bytesize, numeric) RETURNS bytesize
    AS 'MODULE_PATHNAME' LANGUAGE C IMMUTABLE STRICT PARALLEL SAFE;
CREATE FUNCTION bytesize_by_bytesize(bytesize, bytesize) RETURNS numeric
    AS 'MODULE_PATHNAME' LANGUAGE C IMMUTABLE STRICT PARALLEL SAFE;
CREATE OPERATOR + (LEFTARG = bytesize, RIGHTARG = bytesize, FUNCTION = bytesize_add, COMMUTATOR = +);
CREATE OPERATOR - (LEFTARG = bytesize, RIGHTARG = bytesize, FUNCTION = bytesize_subtract);
CREATE OPERATOR * (LEFTARG = bytesize, RIGHTARG = numeric, FUNCTION = bytesize_times_numeric, COMMUTATOR = *);
CREATE OPERATOR * (LEFTARG = numeric, RIGHTARG = bytesize, FUNCTION = numeric_times_bytesize, COMMUTATOR = *);
CREATE OPERATOR / (LEFTARG = bytesize, RIGHTARG = numeric, FUNCTION = bytesize_by_numeric);
CREATE OPERATOR / (LEFTARG = bytesize, RIGHTARG = bytesize, FUNCTION = bytesize_by_bytesize);

-- Aggregates.
CREATE FUNCTION bytesize_avg_add(internal, bytesize) RETURNS internal
    AS 'MODULE_PATHNAME' LANGUAGE C IMMUTABLE PARALLEL SAFE;
CREATE FUNCTION bytesize_avg_combine(internal, internal) RETURNS internal
    AS 'MODULE_PATHNAME' LANGUAGE C IMMUTABLE PARALLEL SAFE;
CREATE FUNCTION bytesize_avg_serialize(internal) RETURNS bytea
    AS 'MODULE_PATHNAME' LANGUAGE C IMMUTABLE STRICT PARALLEL SAFE;
CREATE FUNCTION bytesize_avg_deserialize(bytea, internal) RETURNS internal
    AS 'MODULE_PATHNAME' LANGUAGE C IMMUTABLE STRICT PARALLEL SAFE;
CREATE FUNCTION bytesize_avg(internal) RETURNS bytesize
    AS 'MODULE_PATHNAME' LANGUAGE C IMMUTABLE PARALLEL SAFE;
CREATE AGGREGATE min(bytesize) (SFUNC = bytesize_smaller, STYPE = bytesize, COMBINEFUNC = bytesize_smaller,
    SORTOP = <, PARALLEL = SAFE);
CREATE AGGREGATE max(bytesize) (SFUNC = bytesize_larger, STYPE = bytesize, COMBINEFUNC = bytesize_larger,
    SORTOP = >, PARALLEL = SAFE);
CREATE AGGREGATE sum(bytesize) (SFUNC = bytesize_add, STYPE = bytesize, COMBINEFUNC = bytesize_add, PARALLEL = SAFE);
CREATE AGGREGATE avg(bytesize) (SFUNC = bytesize_avg_add, STYPE = internal, COMBINEFUNC = bytesize_avg_combine,
    SERIALFUNC = bytesize_avg_serialize, DESERIALFUNC = bytesize_avg_deserialize, FINALFUNC = bytesize_avg,
    PARALLEL = SAFE);
