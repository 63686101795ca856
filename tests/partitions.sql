-- A table of cards over two servers: each judges its own. The last line is 'N passed, M failed'.
\set QUIET on
TRUNCATE outcomes;
CREATE EXTENSION postgres_fdw;
CREATE SERVER first FOREIGN DATA WRAPPER postgres_fdw OPTIONS (host :'socket', port '1', dbname 'cards', extensions 'sirophan', async_capable 'true', fetch_size '10000');
CREATE SERVER second FOREIGN DATA WRAPPER postgres_fdw OPTIONS (host :'socket', port '2', dbname 'cards', extensions 'sirophan', async_capable 'true', fetch_size '10000');
CREATE USER MAPPING FOR CURRENT_USER SERVER first OPTIONS (user 'sirophan');
CREATE USER MAPPING FOR CURRENT_USER SERVER second OPTIONS (user 'sirophan');
\c cards - :socket 1
CREATE TABLE part(id integer NOT NULL, card bytea NOT NULL);
\c cards - :socket 2
CREATE TABLE part(id integer NOT NULL, card bytea NOT NULL);
\c postgres - :socket 1
CREATE TABLE parted(id integer NOT NULL, card bytea NOT NULL) PARTITION BY RANGE (id);
CREATE FOREIGN TABLE parted_first PARTITION OF parted FOR VALUES FROM (0) TO (1000) SERVER first OPTIONS (table_name 'part');
CREATE FOREIGN TABLE parted_second PARTITION OF parted FOR VALUES FROM (1000) TO (2000) SERVER second OPTIONS (table_name 'part');

-- The largest archive that is answered, half of it on each server.
CREATE TABLE chosen AS SELECT decode(sheet, 'hex') AS sheet, decode(filter, 'hex') AS filter, decode(cards, 'hex') AS cards, expected FROM archives
    WHERE expected !~ 'refused' AND expected <> '' ORDER BY length(cards) DESC, number LIMIT 1;
INSERT INTO parted SELECT at + 1000 * (at % 2), substr(cards, at * 512 + 1, 512) FROM chosen, generate_series(0, length(cards) / 512 - 1) AS at;
SELECT literal(sheet) AS sheet, literal(filter) AS filter FROM chosen \gset
SELECT format('SELECT sirophan_record(card) FROM parted WHERE sirophan_match(%s, %s, card)', :'sheet', :'filter') AS question \gset
CREATE TABLE plan AS SELECT line FROM regexp_split_to_table(planned(:'question'), E'\n') AS line;
CREATE FUNCTION sorted(text) RETURNS text LANGUAGE sql AS $$SELECT string_agg(found, ' ' ORDER BY found::bigint) FROM regexp_split_to_table($1, ' ') AS found$$;

INSERT INTO outcomes VALUES
    ('each server has cards', (SELECT string_agg(count::text, ' ') FROM (SELECT count(*) > 0 AS count FROM parted GROUP BY tableoid) AS each), 'true true'),
    ('the filter is shipped to both', (SELECT count(*)::text FROM plan WHERE line ~ 'Remote SQL: .* WHERE \(\(?public\.sirophan_match\('), '2'),
    ('nothing is judged here', (SELECT count(*)::text FROM plan WHERE line ~ ' Filter: '), '0'),
    ('both at the same time', (SELECT count(*)::text FROM plan WHERE line ~ 'Async Foreign Scan'), '2'),
    ('the list', (SELECT sorted(asked(format('string_agg(found::text, '' '') FROM (%s) AS list(found)', :'question')))), (SELECT sorted(expected) FROM chosen)),
    ('sirophan_select', sorted(asked('string_agg(found::text, '' '') FROM sirophan_select($1, $2, ''parted'', ''card'') AS found', (SELECT sheet FROM chosen), (SELECT filter FROM chosen))),
     (SELECT sorted(expected) FROM chosen)),
    ('a parameter is shipped too', (SELECT count(*)::text FROM regexp_split_to_table(
        planned(format('SELECT FROM parted WHERE sirophan_match((SELECT sheet FROM chosen), %s, card)', :'filter')), E'\n') AS line
        WHERE line ~ 'Remote SQL: .* WHERE \(\(?public\.sirophan_match_each\('), '2'),
    ('a count is made there', (SELECT count(*)::text FROM regexp_split_to_table(
        planned(format('SELECT count(*) FROM parted_first WHERE sirophan_match(%s, %s, card)', :'sheet', :'filter')), E'\n') AS line
        WHERE line ~ 'Remote SQL: SELECT count\(\*\) FROM'), '1'),
    ('senseless', asked(format('count(*) FROM parted WHERE sirophan_match(%s, ''nowhere eq 1'', card)', :'sheet')), 'refused 14 at 0');

-- A card at fault on the second server leaves no answer.
\c cards - :socket 2
UPDATE part SET card = set_byte(card, 511, 255) WHERE id = (SELECT max(id) FROM part);
SELECT sirophan_record(card) AS record FROM part WHERE id = (SELECT max(id) FROM part) \gset
\c postgres - :socket 1
INSERT INTO outcomes VALUES
    ('a damaged card there', error_of(:'question'), 'SR021; refused 21 at 0: The card''s check sum is wrong.; The card has the record number ' || :'record' ||
     '.; There is no answer until the card is put right. `sirophan show` says what is wrong with a card.');

SELECT format('failed: %s: %s where %s was expected', name, answered, expected) FROM outcomes WHERE answered IS DISTINCT FROM expected LIMIT 20;
SELECT format('%s passed, %s failed', count(*) FILTER (WHERE answered IS NOT DISTINCT FROM expected), count(*) FILTER (WHERE answered IS DISTINCT FROM expected)) FROM outcomes;
