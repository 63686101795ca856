-- What one server answers, beside what the second implementation does (the files `cases` and `archives`), and what only a database can be asked.
-- The last line is 'N passed, M failed'.
\set QUIET on
CREATE TABLE outcomes(name text, answered text, expected text);

-- The answer to SQL with up to four parameters; a refusal as the generated files have it, where its SQLSTATE goes with it.
CREATE FUNCTION asked(ask text, a bytea = NULL, b bytea = NULL, c bytea = NULL, d bytea = NULL) RETURNS text LANGUAGE plpgsql AS $$
DECLARE
    answer text;
    state text;
    message text;
BEGIN
    EXECUTE 'SELECT ' || ask INTO answer USING a, b, c, d;
    RETURN answer;
EXCEPTION WHEN OTHERS THEN
    GET STACKED DIAGNOSTICS state = RETURNED_SQLSTATE, message = MESSAGE_TEXT;
    IF state = 'SR' || lpad(substring(message FROM '^refused (\d+) at \d+: [A-Z].*\.$'), 3, '0') THEN
        RETURN substring(message FROM '^refused \d+ at \d+');
    END IF;
    RETURN state || ' ' || message;
END
$$;

-- All that an error says.
CREATE FUNCTION error_of(ask text) RETURNS text LANGUAGE plpgsql AS $$
DECLARE
    state text;
    message text;
    detail text;
    hint text;
BEGIN
    EXECUTE ask;
    RETURN 'no error';
EXCEPTION WHEN OTHERS THEN
    GET STACKED DIAGNOSTICS state = RETURNED_SQLSTATE, message = MESSAGE_TEXT, detail = PG_EXCEPTION_DETAIL, hint = PG_EXCEPTION_HINT;
    RETURN concat_ws('; ', state, message, detail, hint);
END
$$;

-- ---- generated questions

CREATE TABLE cases(number serial, sheet text, filter text, string text, card text,
    c text, m text, p text, e text, r text, cs text, s text);
\set cases :folder '/cases'
COPY cases(sheet, filter, string, card, c, m, p, e, r, cs, s) FROM :'cases';
INSERT INTO outcomes
    SELECT format('case %s, %s', number, ask), asked(ask, decode(sheet, 'hex'), decode(filter, 'hex'), decode(string, 'hex'), decode(card, 'hex')), expected
    FROM cases, LATERAL (VALUES
        ('sirophan_check($1, $2)', c), ('sirophan_match($1, $2, $4)::int', m), ('encode(sirophan_plain($2), ''hex'')', p),
        ('sirophan_explain($1, $2, $4)', e), ('sirophan_record($4)', r), ('sirophan_check_search($1, $3)', cs),
        ('sirophan_search($1, $3, $4)::int', s)) AS asks(ask, expected);

-- ---- generated archives: as a list, and by a WHERE whose sheet is a constant, a parameter and a row of a table

CREATE TABLE archives(number serial, sheet text, filter text, cards text, expected text);
\set archives :folder '/archives'
COPY archives(sheet, filter, cards, expected) FROM :'archives';
CREATE TABLE archive(place serial, card bytea NOT NULL);
CREATE TABLE sheets(sheet bytea);
DO $$
DECLARE
    one record;
    ways text[] = ARRAY[
        'string_agg(found::text, '' '') FROM sirophan_select($1, $2, ''archive'', ''card'') AS found',
        'string_agg(sirophan_record(card)::text, '' '' ORDER BY place) FROM archive WHERE sirophan_match($1, $2, card)',
        'string_agg(sirophan_record(card)::text, '' '' ORDER BY place) FROM archive WHERE sirophan_match((SELECT sheet FROM sheets), $2, card)',
        'string_agg(sirophan_record(card)::text, '' '' ORDER BY place) FROM archive WHERE place > 0 AND sirophan_match($1, (SELECT $2), card)'];
    way text;
BEGIN
    FOR one IN SELECT number, decode(sheet, 'hex') AS sheet, decode(filter, 'hex') AS filter, decode(cards, 'hex') AS cards, expected FROM archives LOOP
        TRUNCATE archive, sheets;
        INSERT INTO sheets VALUES (one.sheet);
        INSERT INTO archive(card) SELECT substr(one.cards, at + 1, 512) FROM generate_series(0, length(one.cards) - 1, 512) AS at ORDER BY at;
        FOREACH way IN ARRAY ways LOOP
            INSERT INTO outcomes VALUES (format('archive %s, %s', one.number, way), coalesce(asked(way, one.sheet, one.filter), ''), one.expected);
        END LOOP;
    END LOOP;
END
$$;

-- ---- by hand: the first generated card that matches, with its sheet and its filter

CREATE TABLE ward AS
    WITH answered AS MATERIALIZED (
        SELECT number, decode(sheet, 'hex') AS sheet, decode(filter, 'hex') AS filter, decode(cards, 'hex') AS cards FROM archives WHERE expected ~ '^[0-9]')
    SELECT sheet, filter, substr(cards, 512 * at + 1, 512) AS card FROM answered, generate_series(0, length(cards) / 512 - 1) AS at
    WHERE sirophan_match(sheet, filter, substr(cards, 512 * at + 1, 512)) ORDER BY number, at LIMIT 1;
CREATE TABLE empty(card bytea);
CREATE FUNCTION literal(bytea) RETURNS text LANGUAGE sql AS 'SELECT quote_literal($1) || ''::bytea''';
SELECT literal(sheet) AS sheet, literal(filter) AS filter, literal(card) AS card, literal(substr(card, 1, 511)) AS short,
    literal(set_byte(card, 511, 255)) AS damaged, sirophan_record(card) AS record FROM ward \gset

INSERT INTO outcomes VALUES
    ('a refusal, whole', error_of(format('SELECT sirophan_check(%s, ''nowhere eq 1'')', :'sheet')),
     'SR014; refused 14 at 0: The name is not on the sheet, or cannot stand here: members are named with their bundle''s brackets.; '
     'The place counts the bytes of: nowhere eq 1; `sirophan check` says what could stand there in its place.'),
    ('a short card', error_of(format('SELECT sirophan_match(%s, %s, %s)', :'sheet', :'filter', :'short')),
     'SR020; refused 20 at 0: The card is not 512 bytes long, or the run is no whole number of cards or over 128.; The card has 511 bytes.; '
     'There is no answer until the card is put right. `sirophan show` says what is wrong with a card.'),
    ('a damaged card', error_of(format('SELECT sirophan_match(%s, %s, %s)', :'sheet', :'filter', :'damaged')),
     'SR021; refused 21 at 0: The card''s check sum is wrong.; The card has the record number ' || :'record' ||
     '.; There is no answer until the card is put right. `sirophan show` says what is wrong with a card.'),
    ('a short sheet', error_of('SELECT sirophan_check(''x'', ''a eq 1'')'),
     'SR001; refused 1 at 0: The sheet is not 512 bytes long.; ; `sirophan show` says what is wrong with a sheet.'),
    ('a filter that cannot be shown', error_of('SELECT sirophan_plain(''\x61ff00'')'),
     'SR011; refused 11 at 1: The text is no filter by the grammar: no filter goes on like this.; ; `sirophan check` says what could stand there in its place.'),
    ('NULL', coalesce(asked(format('sirophan_match(%s, %s, NULL)', :'sheet', :'filter')), 'NULL'), 'NULL'),
    ('a list by no filter', asked(format('* FROM sirophan_select(%s, NULL, ''empty'', ''card'')', :'sheet')), '22004 a list was asked for with an argument that is NULL'),
    ('a list of a NULL card', asked(format('count(found) FROM sirophan_select(%s, %s, ''empty'', ''card'') AS found', :'sheet', :'filter')), '0');

-- No row is looked at: constants, parameters of a plan that does not know them, subselects; and the same where the filter has a meaning.
CREATE FUNCTION without_rows(filter text) RETURNS TABLE(name text, answered text) LANGUAGE plpgsql AS $$
DECLARE
    sheet text = (SELECT literal(ward.sheet) FROM ward);
BEGIN
    PERFORM set_config('plan_cache_mode', 'force_generic_plan', true);
    RETURN QUERY VALUES ('constants', asked(format('count(*) FROM empty WHERE sirophan_match(%s, %s, card)', sheet, filter))),
        ('a subselect', asked(format('count(*) FROM empty WHERE sirophan_match((SELECT sheet FROM ward), %s, card)', filter))),
        ('two', asked(format('count(*) FROM empty a JOIN empty b USING (card) WHERE sirophan_match((SELECT sheet FROM ward), %s, b.card)', filter))),
        ('a list', asked(format('count(*) FROM sirophan_select(%s, %s, ''empty'', ''card'')', sheet, filter)));
    EXECUTE format('PREPARE prepared(bytea, bytea) AS SELECT count(*) FROM empty WHERE sirophan_match($1, $2, card)');
    RETURN QUERY VALUES ('parameters', replace(error_of(format('EXECUTE prepared(%s, %s)', sheet, filter)), 'no error', '0'));
    DEALLOCATE prepared;
END
$$;
INSERT INTO outcomes SELECT 'no row, senseless, ' || name, left(substring(answered FROM 'refused.*'), 15), 'refused 14 at 0' FROM without_rows('''nowhere eq 1''');
INSERT INTO outcomes SELECT 'no row, ' || name, answered, '0' FROM without_rows((SELECT literal(filter) FROM ward));
INSERT INTO outcomes VALUES
    ('a list by a search string, no row', asked(format('count(*) FROM sirophan_select_search(%s, ''nowhere=1'', ''empty'', ''card'')', :'sheet')), 'refused 14 at 0'),
    ('a correlated sheet', asked('count(*) FROM ward w WHERE sirophan_match((SELECT i.sheet FROM ward i WHERE i.card = w.card), filter, card)'), '1'),
    ('a correlated sheet that is none',
     asked('count(*) FROM ward w WHERE sirophan_match((SELECT substr(w.card, 1, 5) FROM ward i WHERE i.card = w.card), filter, card)'), 'refused 1 at 0'),
    ('a search string, no row', asked(format('count(*) FROM empty WHERE sirophan_search(%s, ''nowhere=1'', card)', :'sheet')), 'refused 14 at 0'),
    ('a search string of a subselect, no row',
     asked('count(*) FROM empty WHERE sirophan_search((SELECT sheet FROM ward), ''nowhere=1'', card)'), 'refused 14 at 0'),
    ('a sheet in each row', asked('count(*) FROM ward WHERE sirophan_match(sheet, filter, card)'), '1'),
    ('another sheet in a row', asked('count(*) FROM (SELECT sheet FROM ward UNION ALL SELECT ''x'') AS s, ward WHERE sirophan_match(s.sheet, filter, card)'),
     'refused 1 at 0');
INSERT INTO empty VALUES (NULL);
INSERT INTO outcomes VALUES
    ('a list with a NULL card', asked(format('count(*) FROM sirophan_select(%s, %s, ''empty'', ''card'')', :'sheet', :'filter')), '22004 a card of empty is NULL');

-- Every processor may work on it.
CREATE TABLE many AS SELECT card FROM ward, generate_series(1, 20000);
ANALYZE many;
SET max_parallel_workers_per_gather = 2;
SET parallel_setup_cost = 0;
SET min_parallel_table_scan_size = 0;
CREATE FUNCTION planned(ask text) RETURNS text LANGUAGE plpgsql AS $$
DECLARE
    line text;
    lines text = '';
BEGIN
    FOR line IN EXECUTE 'EXPLAIN (VERBOSE, COSTS OFF) ' || ask LOOP lines = lines || line || E'\n'; END LOOP;
    RETURN lines;
END
$$;
SELECT format('SELECT count(*) FROM many WHERE sirophan_match(%s, %s, card)', :'sheet', :'filter') AS many \gset
INSERT INTO outcomes VALUES
    ('parallel', substring(planned(:'many') FROM 'Parallel Seq Scan on public.many'), 'Parallel Seq Scan on public.many'),
    ('parallel, counted', asked(substr(:'many', 8)), '20000'),
    ('checked once', substring(planned('SELECT FROM empty WHERE sirophan_match((SELECT sheet FROM ward), ''nowhere eq 1'', card)') FROM 'One-Time Filter: sirophan_meaning'),
     'One-Time Filter: sirophan_meaning');

SELECT format('failed: %s: %s where %s was expected', name, answered, expected) FROM outcomes WHERE answered IS DISTINCT FROM expected LIMIT 20;
SELECT format('%s passed, %s failed', count(*) FILTER (WHERE answered IS NOT DISTINCT FROM expected), count(*) FILTER (WHERE answered IS DISTINCT FROM expected)) FROM outcomes;
