\echo Use "CREATE EXTENSION sirophan" to load this file. \quit

-- Every argument is bytea: a text has a collation, and postgres_fdw ships no call with one that it does not know. NULL gives NULL, as SQL has it.

CREATE FUNCTION sirophan_check(sheet bytea, filter bytea) RETURNS integer
    AS 'MODULE_PATHNAME', 'sql_check' LANGUAGE C IMMUTABLE STRICT PARALLEL SAFE COST 10;
COMMENT ON FUNCTION sirophan_check(bytea, bytea) IS 'how many tests a filter has; it is refused where one has no meaning';

CREATE FUNCTION sirophan_check_search(sheet bytea, string bytea) RETURNS integer
    AS 'MODULE_PATHNAME', 'sql_check_search' LANGUAGE C IMMUTABLE STRICT PARALLEL SAFE COST 10;
COMMENT ON FUNCTION sirophan_check_search(bytea, bytea) IS 'how many alternatives a search string has';

CREATE FUNCTION sirophan_plain(filter bytea) RETURNS bytea
    AS 'MODULE_PATHNAME', 'sql_plain' LANGUAGE C IMMUTABLE STRICT PARALLEL SAFE COST 10;
COMMENT ON FUNCTION sirophan_plain(bytea) IS 'the plain spelling of a filter';

CREATE FUNCTION sirophan_record(card bytea) RETURNS bigint
    AS 'MODULE_PATHNAME', 'sql_record' LANGUAGE C IMMUTABLE STRICT PARALLEL SAFE;
COMMENT ON FUNCTION sirophan_record(bytea) IS 'the record number of a card';

CREATE FUNCTION sirophan_explain(sheet bytea, filter bytea, card bytea) RETURNS text
    AS 'MODULE_PATHNAME', 'sql_explain' LANGUAGE C IMMUTABLE STRICT PARALLEL SAFE COST 40;
COMMENT ON FUNCTION sirophan_explain(bytea, bytea, bytea) IS 'the answer, and which tests decide it, as JSON';

-- The planner asks these when it meets a call of match or search. A question that it knows is checked while it plans; one that it will know
-- when the statement runs, a parameter or a subselect, becomes the call of a twin that is asked of each card behind `meaning`, which is asked once.

CREATE FUNCTION sirophan_support(internal) RETURNS internal
    AS 'MODULE_PATHNAME', 'sql_support' LANGUAGE C STRICT;

CREATE FUNCTION sirophan_support_search(internal) RETURNS internal
    AS 'MODULE_PATHNAME', 'sql_support_search' LANGUAGE C STRICT;

CREATE FUNCTION sirophan_meaning(sheet bytea, filter bytea) RETURNS boolean
    AS 'MODULE_PATHNAME', 'sql_meaning' LANGUAGE C IMMUTABLE STRICT PARALLEL SAFE COST 10;
COMMENT ON FUNCTION sirophan_meaning(bytea, bytea) IS 'yes, or the refusal of a filter';

CREATE FUNCTION sirophan_meaning_search(sheet bytea, string bytea) RETURNS boolean
    AS 'MODULE_PATHNAME', 'sql_meaning_search' LANGUAGE C IMMUTABLE STRICT PARALLEL SAFE COST 10;
COMMENT ON FUNCTION sirophan_meaning_search(bytea, bytea) IS 'yes, or the refusal of a search string';

CREATE FUNCTION sirophan_match_each(sheet bytea, filter bytea, card bytea) RETURNS boolean
    AS 'MODULE_PATHNAME', 'sql_match' LANGUAGE C IMMUTABLE STRICT PARALLEL SAFE COST 20;
COMMENT ON FUNCTION sirophan_match_each(bytea, bytea, bytea) IS 'sirophan_match, of a filter that was checked before';

CREATE FUNCTION sirophan_search_each(sheet bytea, string bytea, card bytea) RETURNS boolean
    AS 'MODULE_PATHNAME', 'sql_search' LANGUAGE C IMMUTABLE STRICT PARALLEL SAFE COST 40;
COMMENT ON FUNCTION sirophan_search_each(bytea, bytea, bytea) IS 'sirophan_search, of a search string that was checked before';

CREATE FUNCTION sirophan_match(sheet bytea, filter bytea, card bytea) RETURNS boolean
    AS 'MODULE_PATHNAME', 'sql_match' LANGUAGE C IMMUTABLE STRICT PARALLEL SAFE COST 20 SUPPORT sirophan_support;
COMMENT ON FUNCTION sirophan_match(bytea, bytea, bytea) IS 'whether a card matches a filter';

CREATE FUNCTION sirophan_search(sheet bytea, string bytea, card bytea) RETURNS boolean
    AS 'MODULE_PATHNAME', 'sql_search' LANGUAGE C IMMUTABLE STRICT PARALLEL SAFE COST 40 SUPPORT sirophan_support_search;
COMMENT ON FUNCTION sirophan_search(bytea, bytea, bytea) IS 'whether a card matches a search string';

-- The record numbers of a table's cards that match, by the function that asks a card. It is not strict: a sheet, a question or a card that is NULL is an
-- error, and no list without it.

CREATE FUNCTION sirophan_listed(sheet bytea, question bytea, cards regclass, card name, asks name, checks name) RETURNS SETOF bigint LANGUAGE plpgsql STABLE PARALLEL SAFE AS $$
DECLARE
    found bigint;
BEGIN
    IF sheet IS NULL OR question IS NULL OR cards IS NULL OR card IS NULL THEN
        RAISE null_value_not_allowed USING MESSAGE = 'a list was asked for with an argument that is NULL';
    END IF;
    EXECUTE format('SELECT @extschema@.%I($1, $2)', checks) USING sheet, question;
    FOR found IN EXECUTE format(
        'SELECT @extschema@.sirophan_record(%1$I) FROM %2$s WHERE %1$I IS NULL OR @extschema@.%3$I($1, $2, %1$I)', card, cards, asks) USING sheet, question
    LOOP
        IF found IS NULL THEN
            RAISE null_value_not_allowed USING MESSAGE = format('a card of %s is NULL', cards);
        END IF;
        RETURN NEXT found;
    END LOOP;
END
$$;

CREATE FUNCTION sirophan_select(sheet bytea, filter bytea, cards regclass, card name) RETURNS SETOF bigint LANGUAGE sql STABLE PARALLEL SAFE
    AS $$SELECT @extschema@.sirophan_listed(sheet, filter, cards, card, 'sirophan_match', 'sirophan_check')$$;
COMMENT ON FUNCTION sirophan_select(bytea, bytea, regclass, name) IS 'the record numbers of the cards of a table that match a filter';

CREATE FUNCTION sirophan_select_search(sheet bytea, string bytea, cards regclass, card name) RETURNS SETOF bigint LANGUAGE sql STABLE PARALLEL SAFE
    AS $$SELECT @extschema@.sirophan_listed(sheet, string, cards, card, 'sirophan_search', 'sirophan_check_search')$$;
COMMENT ON FUNCTION sirophan_select_search(bytea, bytea, regclass, name) IS 'the same by a search string';
