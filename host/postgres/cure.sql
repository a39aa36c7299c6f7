-- Merges every second name of a store into the row of its right key. As it stands it only counts, and changes nothing; with `do=it` it changes.
--
--     psql -f host/postgres/cure.sql STORE
--     psql -v do=it -f host/postgres/cure.sql STORE
--
-- Names are changed and rows merged in place, so that columns, indexes, triggers, rights and views stay as they are. What refers to a row that goes is
-- moved with it, through as many tables as refer to one another. What the script does not know it names, and then changes nothing (`refused: ..`,
-- status 3). All is one transaction, in which others can read; at its end comes the check on new rows, and behind it that on all rows. More options:
--
--     -v settled=yes            the right key is the settled one: keys with an en passant square that no pawn can use are merged too, and refused then
--     -v wins=kept              where the rows of one position differ in further columns, those of the right key's row stay (or of the first name's)
--     -v also=TABLE.COLUMN,..   columns that refer to `position` without a foreign key
--     -v leave=TABLE.COLUMN,..  columns that hold second names and are to keep them
--
-- A name that is no FEN text has no key and is left; then the check on all rows fails, the rest stays, and second-names.sql shows what is left.
-- A store over several servers has the domain from its first day (host/postgres/layout): it is cured before it moves there.
\set ON_ERROR_STOP on
\set QUIET on
\set SHOW_CONTEXT never
\pset tuples_only on
\pset format unaligned
SELECT menkhodur_version() AS version \gset

-- The rule, in this one place: the function that gives a text's right key, the one that the check asks, and the domain of such keys.
\if :{?settled}
\else
\set settled ''
\endif
SELECT :'settled' <> '' AS by_settled \gset
\if :by_settled
\set key_of menkhodur_settled
\set is_key menkhodur_is_settled
\set domain fen_position
\set key 'settled key'
\else
\set key_of menkhodur_key
\set is_key menkhodur_is_key
\set domain fen_key
\set key key
\endif

\if :{?do}
\else
\set do ''
\endif
\if :{?wins}
\else
\set wins ''
\endif
\if :{?also}
\else
\set also ''
\endif
\if :{?leave}
\else
\set leave ''
\endif
SELECT :'do' = 'it' AS doing, CASE WHEN :'do' = 'it' THEN 'were' ELSE 'would be' END AS were \gset
-- With the lock nobody writes until the end; without it, all is counted at one moment.
\if :doing
BEGIN;
LOCK TABLE position IN SHARE ROW EXCLUSIVE MODE;
\else
BEGIN ISOLATION LEVEL REPEATABLE READ;
\endif
-- A row that a policy hides is then an error, and not a row that is left out.
SET LOCAL row_security = off;

CREATE TEMP TABLE refusal (number int GENERATED ALWAYS AS IDENTITY, why text) ON COMMIT DROP;
CREATE OR REPLACE FUNCTION pg_temp.stop_if_refused() RETURNS void LANGUAGE plpgsql AS $$
BEGIN
    IF EXISTS (SELECT 1 FROM refusal) THEN
        RAISE EXCEPTION E'nothing is changed, since\n%', (SELECT string_agg('refused: ' || why, E'\n' ORDER BY number) FROM refusal);
    END IF;
END $$;
INSERT INTO refusal (why) SELECT format('do is %L, and only ''it'' is known', :'do') WHERE :'do' NOT IN ('', 'it')
UNION ALL SELECT format('settled is %L, and only ''yes'' is known', :'settled') WHERE :'settled' NOT IN ('', 'yes')
UNION ALL SELECT format('the extension here has no %s: ALTER EXTENSION menkhodur UPDATE', :'key_of') WHERE to_regprocedure(:'key_of' || '(text)') IS NULL
UNION ALL SELECT format('wins is %L, and only ''kept'' is known', :'wins') WHERE :'wins' NOT IN ('', 'kept');

-- ---- What the catalog says: columns, foreign keys by pairs of columns, and what is unique

CREATE TEMP TABLE col ON COMMIT DROP AS
SELECT c.oid AS tab, c.oid::regclass::text AS tab_name, CASE WHEN pg_table_is_visible(c.oid) THEN '' ELSE n.nspname || '.' END || c.relname AS shown,
    c.relkind, c.relispartition, c.relowner, a.attnum AS col, a.attname AS name, a.atttypid, format_type(a.atttypid, a.atttypmod) AS type,
    t.typcategory = 'S' AS is_text, a.attgenerated <> '' AS generated, a.attidentity = 'a' AS numbered, pg_get_expr(d.adbin, d.adrelid) AS preset,
    (SELECT format(' COLLATE %I.%I', s.nspname, l.collname) FROM pg_collation l JOIN pg_namespace s ON s.oid = l.collnamespace
     WHERE l.oid = a.attcollation) AS coll
FROM pg_class c JOIN pg_namespace n ON n.oid = c.relnamespace JOIN pg_attribute a ON a.attrelid = c.oid JOIN pg_type t ON t.oid = a.atttypid
    LEFT JOIN pg_attrdef d ON d.adrelid = a.attrelid AND d.adnum = a.attnum
WHERE c.relkind IN ('r', 'p', 'f') AND c.relpersistence <> 't' AND a.attnum > 0 AND NOT a.attisdropped
    AND n.nspname NOT IN ('pg_catalog', 'information_schema', 'pg_toast');
CREATE TEMP TABLE foreign_key ON COMMIT DROP AS
SELECT c.oid AS id, c.conrelid AS tab, k.child AS col, c.confrelid AS parent, k.parent AS parent_col
FROM pg_constraint c, unnest(c.conkey, c.confkey) AS k (child, parent) WHERE c.contype = 'f' AND c.conparentid = 0;
CREATE TEMP TABLE alone ON COMMIT DROP AS SELECT DISTINCT indrelid AS tab, indkey[0] AS col FROM pg_index
WHERE indisunique AND indisvalid AND indpred IS NULL AND indexprs IS NULL AND indnkeyatts = 1;
CREATE TEMP TABLE part ON COMMIT DROP AS SELECT relid FROM pg_partition_tree('position'::regclass) WHERE relid <> 'position'::regclass;
SELECT 'position'::regclass::oid AS pos, coalesce(max(col), 0) AS fen, coalesce(max(coll), '') AS coll, coalesce(max(type), 'text') AS type
FROM col WHERE tab = 'position'::regclass AND name = 'fen' \gset

INSERT INTO refusal (why)
SELECT 'position has no column fen' WHERE :fen = 0
UNION ALL SELECT 'position.fen is not unique by itself: how two rows become one is not known'
WHERE NOT EXISTS (SELECT 1 FROM alone WHERE tab = :pos AND col = :fen)
UNION ALL SELECT format('position.fen is of type %s, whose equality is not that of bytes', c.type) FROM col c JOIN pg_type t ON t.oid = c.atttypid
WHERE c.tab = :pos AND c.col = :fen AND NOT coalesce(nullif(t.typbasetype, 0), t.oid) IN ('text'::regtype, 'varchar'::regtype, 'bpchar'::regtype)
UNION ALL SELECT 'position.fen has a collation in which different texts are equal' FROM pg_attribute a JOIN pg_collation l ON l.oid = a.attcollation
WHERE a.attrelid = :pos AND a.attnum = :fen AND NOT l.collisdeterministic
UNION ALL SELECT 'position.fen is made from other columns' FROM col WHERE tab = :pos AND col = :fen AND generated
UNION ALL SELECT format('position.fen itself refers to %s', parent::regclass) FROM foreign_key WHERE tab = :pos AND col = :fen
UNION ALL SELECT format('%s is a part of position on another server', relid) FROM part JOIN pg_class c ON c.oid = relid WHERE c.relkind = 'f'
UNION ALL SELECT format('%s inherits from position', i.inhrelid::regclass) FROM pg_inherits i JOIN pg_class c ON c.oid = i.inhrelid
WHERE i.inhparent = :pos AND NOT c.relispartition
UNION ALL SELECT format('%s refers to %s, a part of position', f.tab::regclass, f.parent::regclass) FROM foreign_key f JOIN part ON part.relid = f.parent
-- A store that keeps settled keys is not turned back: then it would take two names for one position.
UNION ALL SELECT DISTINCT format('%s keeps settled keys: say settled=yes', shown) FROM col c LEFT JOIN pg_constraint k ON k.conrelid = c.tab AND k.contype = 'c'
WHERE :'settled' = '' AND c.name = 'fen' AND c.tab IN (:pos, to_regclass('game_position'))
    AND (c.atttypid = to_regtype('fen_position') OR pg_get_constraintdef(k.oid) LIKE 'CHECK (menkhodur_is_settled(%')
UNION ALL SELECT format('%s belongs to %s, who alone can put the check on', shown, relowner::regrole) FROM col
WHERE name = 'fen' AND tab IN (:pos, to_regclass('game_position')) AND NOT pg_has_role(relowner, 'USAGE');

-- ---- What refers to `position`: to a name, or to a number that is unique by itself; directly, or by way of a column that does

CREATE TEMP TABLE root ON COMMIT DROP AS SELECT :fen::smallint AS col UNION
SELECT f.parent_col FROM foreign_key f JOIN alone a ON a.tab = f.parent AND a.col = f.parent_col WHERE f.parent = :pos;
INSERT INTO refusal (why) SELECT format('%s refers to position by %s, of which nothing is unique by itself', f.tab::regclass, string_agg(c.name, ' and '))
FROM foreign_key f JOIN col c ON c.tab = f.parent AND c.col = f.parent_col LEFT JOIN root r ON r.col = f.parent_col
WHERE f.parent = :pos GROUP BY f.id, f.tab HAVING count(r.col) = 0;

CREATE TEMP TABLE refers ON COMMIT DROP AS
WITH RECURSIVE r (root, tab, col) AS (
    SELECT s.root, s.tab, s.col FROM (
        SELECT f.parent_col AS root, f.tab, f.col FROM foreign_key f JOIN root ON root.col = f.parent_col WHERE f.parent = :pos
        UNION SELECT :fen::smallint, c.tab, c.col FROM col c
        WHERE (c.tab = to_regclass('game_position') AND c.name = 'fen') OR strpos(',' || :'also' || ',', ',' || c.shown || '.' || c.name || ',') > 0) s
    UNION SELECT r.root, f.tab, f.col FROM r JOIN foreign_key f ON f.parent = r.tab AND f.parent_col = r.col
)
SELECT r.root, c.* FROM r JOIN col c ON c.tab = r.tab AND c.col = r.col;
-- What refers as a part of a table refers as that table.
DELETE FROM refers r USING refers o WHERE o.tab = pg_partition_root(r.tab) AND o.tab <> r.tab AND o.name = r.name;
SELECT format('LOCK TABLE %s IN SHARE ROW EXCLUSIVE MODE', string_agg(DISTINCT tab_name, ', ')) FROM refers WHERE :'doing' HAVING count(*) > 0 \gexec

INSERT INTO refusal (why)
SELECT format('%s.%s refers to more than one column of position', shown, name) FROM refers GROUP BY shown, name HAVING count(*) > 1
UNION ALL SELECT format('%s.%s refers to position and is made by the server', shown, name) FROM refers WHERE generated OR numbered
UNION ALL SELECT format('%s is on another server', shown) FROM refers WHERE relkind = 'f'
UNION ALL SELECT format('%s has the rule %s, which puts something else in the place of a change', ev_class::regclass, rulename) FROM pg_rewrite
WHERE ev_type <> '1' AND (ev_class = :pos OR ev_class IN (SELECT tab FROM refers))
UNION ALL SELECT format('%s names a column that is not there: %s', v.option, item)
FROM (VALUES ('also', :'also'), ('leave', :'leave')) v (option, list), regexp_split_to_table(v.list, ',') item
WHERE item <> '' AND NOT EXISTS (SELECT 1 FROM col WHERE shown || '.' || name = item);
SELECT pg_temp.stop_if_refused() \g /dev/null

-- ---- The names: those filed, and those that are only referred to. `kept` is the row that stays: the right key's, or else the first name's.

CREATE TEMP TABLE unfiled (fen text COLLATE "C") ON COMMIT DROP;
SELECT format('INSERT INTO unfiled SELECT x.%I::text FROM %s x WHERE x.%I IS NOT NULL AND NOT EXISTS (SELECT 1 FROM position p WHERE p.fen = x.%I::text%s)',
    name, tab_name, name, name, :'coll') FROM refers WHERE root = :fen \gexec
CREATE TEMP TABLE second ON COMMIT DROP AS SELECT fen, key, filed, key AS kept
FROM (SELECT fen, CASE WHEN menkhodur_fault(fen) IS NULL THEN :key_of(fen) END AS key, filed
      FROM (SELECT fen::text COLLATE "C" AS fen, true AS filed FROM position UNION ALL SELECT DISTINCT fen, false FROM unfiled) u) n
WHERE key IS DISTINCT FROM fen;
SELECT count(*) AS faulty FROM second WHERE key IS NULL \gset
DELETE FROM second WHERE key IS NULL;
CREATE INDEX ON second (fen);
CREATE INDEX ON second (key, fen);
ANALYZE second;
UPDATE second s SET kept = (SELECT min(o.fen) FROM second o WHERE o.key = s.key AND o.filed)
WHERE NOT EXISTS (SELECT 1 FROM position p WHERE p.fen = s.key:coll);

-- Of each root, which value becomes which.
SELECT format('CREATE TEMP TABLE moved_%s ON COMMIT DROP AS SELECT o.%I AS old, k.%I AS new FROM second s
    JOIN position o ON o.fen = s.fen%s JOIN position k ON k.fen = s.kept%s WHERE s.filed AND s.fen <> s.kept', c.col, c.name, c.name, :'coll', :'coll')
FROM root r JOIN col c ON c.tab = :pos AND c.col = r.col WHERE r.col <> :fen
UNION ALL SELECT format('CREATE TEMP TABLE moved_%s ON COMMIT DROP AS SELECT fen AS old, key AS new FROM second', :fen)
UNION ALL SELECT format('CREATE INDEX ON moved_%s (old); ANALYZE moved_%s', col, col) FROM root \gexec

-- A column's value as it will be, and whether it moves.
CREATE TEMP TABLE mapped ON COMMIT DROP AS SELECT c.tab, c.tab_name, c.shown, c.col, c.name, r.root,
    CASE WHEN r.root IS NULL THEN format('x.%I', c.name) ELSE format('coalesce((SELECT m.new FROM moved_%s m WHERE m.old = x.%I%s)::%s, x.%I)', r.root, c.name,
        CASE WHEN r.root = :fen THEN '::text COLLATE "C"' ELSE '' END, c.type, c.name) END AS value,
    format('x.%I%s IN (SELECT m.old%s FROM moved_%s m)', c.name, CASE WHEN r.root = :fen THEN '::text' ELSE '' END, c.coll, r.root) AS moves
FROM col c LEFT JOIN refers r ON r.tab = c.tab AND r.col = c.col;
CREATE TEMP TABLE moving ON COMMIT DROP AS SELECT tab, tab_name, shown, string_agg(moves, ' OR ' ORDER BY col) AS moves,
    string_agg(format('%I = %s', name, value), ', ' ORDER BY col) AS assigned FROM mapped WHERE root IS NOT NULL GROUP BY tab, tab_name, shown;

-- ---- Further columns: two rows of one position become one, and nothing that one of them says may be lost

-- A number that others refer to is no further column: what refers to it is moved. A default counts if it is a plain number, text or truth value.
CREATE TEMP TABLE further ON COMMIT DROP AS SELECT c.col, c.name, c.numbered, m.value, m.root,
    format('(%s)::%s', CASE WHEN c.preset ~ $re$^(-?[0-9.]+|'([^']|'')*'(::[a-z ]+)?|true|false)$$re$ THEN c.preset ELSE 'NULL' END, c.type) AS preset
FROM col c JOIN mapped m ON m.tab = c.tab AND m.col = c.col WHERE c.tab = :pos AND NOT c.generated AND c.col NOT IN (SELECT col FROM root);
SELECT coalesce(string_agg(format(', %s AS f%s', value, col), '' ORDER BY col), '') AS further FROM further \gset

-- The rows of each position that has several.
CREATE TEMP TABLE member ON COMMIT DROP AS SELECT key, fen, kept FROM second WHERE filed
UNION SELECT key, key, key FROM second WHERE filed AND kept = key;
DELETE FROM member WHERE key IN (SELECT key FROM member GROUP BY key HAVING count(*) = 1);
CREATE INDEX ON member (key, fen);
ANALYZE member;

-- In which columns `other` says what `fen` does not: another value, byte for byte, that is neither NULL nor the default.
CREATE TEMP TABLE more (key text COLLATE "C", fen text COLLATE "C", other text COLLATE "C", columns text) ON COMMIT DROP;
SELECT format('INSERT INTO more SELECT * FROM (SELECT a.key, a.fen, b.fen AS other, concat_ws('' '', %s) AS columns
    FROM member a JOIN member b ON b.key = a.key AND b.fen <> a.fen
    JOIN (SELECT x.fen%s FROM position x) p ON p.fen = a.fen%s JOIN (SELECT x.fen%s FROM position x) q ON q.fen = b.fen%s) d WHERE columns <> %L',
    string_agg(format('CASE WHEN NOT (record_image_eq(ROW(q.f%s), ROW(p.f%s)) OR q.f%s IS NOT DISTINCT FROM NULL OR record_image_eq(ROW(q.f%s), ROW(%s)))
        THEN %L END', col, col, col, col, preset, name), ', ' ORDER BY col),
    :'further', :'coll', :'further', :'coll', '')
FROM further HAVING count(*) > 0 \gexec
CREATE INDEX ON more (key, fen);
ANALYZE more;

-- The row whose further columns stay: one to which no other adds anything, the kept one first.
CREATE TEMP TABLE winner ON COMMIT DROP AS SELECT key, kept, CASE WHEN :'wins' = 'kept' THEN kept ELSE (SELECT m.fen FROM member m WHERE m.key = g.key
    AND NOT EXISTS (SELECT 1 FROM more WHERE more.key = m.key AND more.fen = m.fen) ORDER BY m.fen <> m.kept, m.fen LIMIT 1) END AS fen
FROM (SELECT DISTINCT key, kept FROM member) g;
INSERT INTO refusal (why) SELECT format('%s positions have rows that differ in further columns: settle them by hand, or say wins=kept', count(*))
FROM winner WHERE fen IS NULL HAVING count(*) > 0;
INSERT INTO refusal (why) SELECT format('  %s and %s differ in %s', more.fen, more.other, more.columns)
FROM winner w JOIN more ON more.key = w.key AND more.fen = w.kept WHERE w.fen IS NULL ORDER BY more.fen, more.other LIMIT 20;

-- ---- What would meet in a unique index when it is moved, and columns that hold second names without a foreign key

CREATE TEMP TABLE counted (what text, tab oid, shown text, name text, n bigint) ON COMMIT DROP;
CREATE TEMP TABLE uniq ON COMMIT DROP AS SELECT m.tab, m.tab_name, m.shown, m.moves, i.indexrelid::regclass::text AS name,
    coalesce(pg_get_expr(i.indpred, i.indrelid), 'true') AS condition, string_agg(e.part, ', ') AS parts,
    CASE WHEN to_jsonb(i) ->> 'indnullsnotdistinct' = 'true' THEN 'true' ELSE string_agg(format('(%s) IS NOT NULL', e.part), ' AND ') END AS filled,
    (SELECT string_agg(format('%s AS %I', c.value, c.name), ', ') FROM mapped c WHERE c.tab = m.tab) AS row_then
FROM moving m JOIN pg_index i ON i.indrelid = m.tab AND i.indisunique, generate_series(1, i.indnkeyatts) n,
    LATERAL (SELECT pg_get_indexdef(i.indexrelid, n, true) AS part) e
WHERE m.tab <> :pos
    AND (i.indexprs IS NOT NULL OR i.indpred IS NOT NULL OR i.indkey::smallint[] && ARRAY(SELECT r.col FROM refers r WHERE r.tab = m.tab))
GROUP BY m.tab, m.tab_name, m.shown, m.moves, i.*, i.indexrelid, i.indpred, i.indrelid;
SELECT format('INSERT INTO counted SELECT %L, %s, %L, %L, count(*) FROM (SELECT bool_or(x."moves now") AS moves
    FROM (SELECT %s, (%s) AS "moves now" FROM %s x) x WHERE (%s) AND %s GROUP BY %s HAVING count(*) > 1) g WHERE moves',
    'meet', tab, shown, name, row_then, moves, tab_name, condition, filled, parts) FROM uniq \gexec
INSERT INTO refusal (why) SELECT format('%s: %s times several rows would be the same by its unique index %s: settle them by hand', shown, n, name)
FROM counted WHERE what = 'meet' AND n > 0;

SELECT format('INSERT INTO counted SELECT %L, %s, %L, %L, count(*) FROM %s x WHERE x.%I::text COLLATE "C" IN (SELECT old FROM moved_%s)',
    'unknown', c.tab, c.shown, c.name, c.tab_name, c.name, :fen)
FROM col c LEFT JOIN refers r ON r.tab = c.tab AND r.col = c.col
WHERE r.col IS NULL AND c.is_text AND NOT c.generated AND c.relkind <> 'f' AND NOT c.relispartition AND NOT (c.tab = :pos AND c.col = :fen)
    AND strpos(',' || :'leave' || ',', ',' || c.shown || '.' || c.name || ',') = 0 \gexec
INSERT INTO refusal (why) SELECT format('%s.%s holds %s second names, and no foreign key says that it refers to position: ', shown, name, n) ||
    format('also=%s.%s moves them, leave=%s.%s keeps them', shown, name, shown, name) FROM counted WHERE what = 'unknown' AND n > 0
UNION ALL SELECT format('%s has a constraint one_name that is not this store''s', conrelid::regclass) FROM pg_constraint
WHERE conname = 'one_name' AND conrelid IN (:pos, to_regclass('game_position')) AND pg_get_constraintdef(oid) NOT LIKE 'CHECK (' || :'is_key' || '(%'
    AND pg_get_constraintdef(oid) NOT LIKE 'CHECK (menkhodur_is_key(%';

-- ---- What it comes to

SELECT format('INSERT INTO counted SELECT %L, %s, %L, %L, count(*) FROM %s x WHERE %s', 'refers', tab, shown, name, tab_name, moves)
FROM mapped WHERE root IS NOT NULL
UNION ALL SELECT format('INSERT INTO counted SELECT %L, %s, %L, NULL, count(*) FROM %s x WHERE %s', 'changes', tab, shown, tab_name, moves)
FROM moving WHERE tab <> :pos
UNION ALL SELECT format('INSERT INTO counted SELECT %L, %s, %L, NULL, count(*) FROM %s x', 'rows', tab, shown, tab_name)
FROM (SELECT DISTINCT tab, shown, tab_name FROM col WHERE tab = :pos OR tab IN (SELECT tab FROM refers)) t \gexec
SELECT count(*) FILTER (WHERE fen = kept) AS renamed, count(*) FILTER (WHERE fen <> kept) AS merged FROM second WHERE filed \gset

SELECT format('the trigger %s of %s fires as for any other change', tgname, tgrelid::regclass) FROM pg_trigger
WHERE NOT tgisinternal AND tgenabled <> 'D' AND tgrelid IN (SELECT tab FROM counted WHERE what = 'rows') ORDER BY tgrelid, tgname;
-- Who refers is looked for at each name that changes.
SELECT 'quicker with an index on ' || string_agg(shown || '.' || name, ', ' ORDER BY shown, name) FROM refers r
WHERE :renamed + :merged > 0 AND NOT EXISTS (SELECT 1 FROM pg_index i WHERE i.indrelid = r.tab AND i.indkey[0] = r.col AND i.indisvalid) HAVING count(*) > 0;
SELECT pg_temp.stop_if_refused() \g /dev/null

-- A check of keys gives way to that of settled keys; a column of the domain of keys gets it too.
CREATE TEMP TABLE guard ON COMMIT DROP AS SELECT c.shown, format('ALTER TABLE %s %sADD CONSTRAINT one_name CHECK (%s(fen)) NOT VALID', c.tab_name,
    CASE WHEN k.oid IS NULL THEN '' ELSE 'DROP CONSTRAINT one_name, ' END, :'is_key') AS sql
FROM col c LEFT JOIN pg_constraint k ON k.conrelid = c.tab AND k.conname = 'one_name'
WHERE c.tab IN (:pos, to_regclass('game_position')) AND c.name = 'fen' AND c.atttypid <> coalesce(to_regtype(:'domain'), 0)
    AND (k.oid IS NULL OR pg_get_constraintdef(k.oid) NOT LIKE 'CHECK (' || :'is_key' || '(%');
SELECT coalesce(string_agg(format(E'%s.%s: %s references %s moved to the right key\n', shown, name, n, :'were'), '' ORDER BY shown, name), '') AS moved_told
FROM counted WHERE what = 'refers' \gset
SELECT coalesce(string_agg(shown || CASE WHEN :'doing' THEN E' refuses second names now\n' ELSE E' would refuse second names\n' END, '' ORDER BY shown), '')
    AS guards_told FROM guard \gset

-- ---- The change: one statement, so that foreign keys of every kind are asked when all rows are in their new places

\if :doing
-- The rows of `position` that stay and are changed: by a new name, by what is carried over, or because they refer to another.
CREATE TEMP TABLE stays ON COMMIT DROP AS SELECT fen FROM second WHERE filed AND fen = kept UNION SELECT kept FROM winner WHERE fen <> kept;
SELECT format('INSERT INTO stays SELECT x.fen::text FROM position x
    WHERE (%s) AND NOT EXISTS (SELECT 1 FROM second s WHERE s.fen = x.fen::text COLLATE "C" AND s.fen <> s.kept)', moves) FROM moving WHERE tab = :pos \gexec
CREATE TEMP TABLE after ON COMMIT DROP AS SELECT y.fen AS old, coalesce(s.key, y.fen) AS new:further FROM (SELECT DISTINCT fen FROM stays) y
LEFT JOIN second s ON s.fen = y.fen LEFT JOIN winner w ON w.kept = y.fen JOIN position x ON x.fen = coalesce(w.fen, y.fen):coll;
CREATE TEMP TABLE done (tab oid, n bigint) ON COMMIT DROP;
SELECT format('WITH removed AS (DELETE FROM position x USING second s WHERE s.filed AND s.fen <> s.kept AND x.fen = s.fen%s RETURNING 1),
    stayed AS (UPDATE position x SET fen = a.new::%s%s FROM after a WHERE x.fen = a.old%s AND (SELECT count(*) FROM removed) >= 0 RETURNING 1)%s
    INSERT INTO done SELECT 0, count(*) FROM removed UNION ALL SELECT 1, count(*) FROM stayed%s', :'coll', :'type', f.assigned, :'coll', m.changes, m.counts)
FROM (SELECT coalesce(string_agg(format(', %I = a.f%s', name, col), ''), '') AS assigned FROM further
      WHERE NOT numbered AND (root IS NOT NULL OR EXISTS (SELECT 1 FROM winner WHERE fen <> kept))) f,
     (SELECT coalesce(string_agg(format(', in_%s AS (UPDATE %s x SET %s WHERE %s RETURNING 1)', tab, tab_name, assigned, moves), ''), '') AS changes,
          coalesce(string_agg(format(' UNION ALL SELECT %s, count(*) FROM in_%s', tab, tab), ''), '') AS counts FROM moving WHERE tab <> :pos) m \gexec
SET CONSTRAINTS ALL IMMEDIATE;

-- What is there now must be what was counted, whatever triggers have done.
INSERT INTO counted VALUES ('changes', 0, 'position', NULL, :merged), ('changes', 1, 'position', NULL, (SELECT count(*) FROM after));
INSERT INTO refusal (why) SELECT format('when all was done, %s rows of %s were changed, and not %s', d.n, c.shown, c.n) FROM counted c JOIN done d USING (tab)
WHERE c.what = 'changes' AND c.n <> d.n;
INSERT INTO refusal (why) SELECT format('when all was done, %s second names were still there', count(*)) FROM position
WHERE menkhodur_fault(fen) IS NULL AND :key_of(fen) <> fen::text COLLATE "C" HAVING count(*) > 0;
SELECT format('INSERT INTO refusal (why) SELECT format(%L, %L, count(*), %s) FROM %s HAVING count(*) <> %s',
    'when all was done, %s had %s rows and not %s', c.shown, w.n, c.tab::regclass, w.n)
FROM counted c, LATERAL (SELECT c.n - CASE WHEN c.tab = :pos THEN :merged ELSE 0 END AS n) w WHERE c.what = 'rows' \gexec
SELECT pg_temp.stop_if_refused() \g /dev/null
SELECT sql FROM guard \gexec
SELECT count(*) AS keys FROM position WHERE menkhodur_fault(fen) IS NULL \gset
COMMIT;
\echo :renamed positions were filed under second names alone and have their :key now
\else
ROLLBACK;
\echo :renamed positions are filed under second names alone and would get their :key
\endif
\echo :merged second names :were merged into the row of their :key
\echo -n :moved_told
\echo -n :guards_told
SELECT :faulty || ' names are no FEN text, have no key, and are left' WHERE :faulty > 0;
\if :doing
\echo :keys positions, each under its :key
-- Looks at every row once; others may read and write meanwhile.
SELECT format('ALTER TABLE %s VALIDATE CONSTRAINT one_name', conrelid::regclass) FROM pg_constraint
WHERE conname = 'one_name' AND NOT convalidated AND conrelid IN (to_regclass('position'), to_regclass('game_position')) ORDER BY conrelid \gexec
\else
\echo nothing was changed: do=it changes
\endif
