-- Merges every second name of a store into the row of its right key. As it stands it only counts, and changes nothing; with `:do it` it changes.
--
--     sqlite3 -cmd '.load PREFIX/lib/menkhodur_sqlite' STORE <host/sqlite/cure.sql
--     sqlite3 -cmd '.load PREFIX/lib/menkhodur_sqlite' -cmd '.parameter set :do it' STORE <host/sqlite/cure.sql
--
-- No table is made anew: names are changed and rows merged in place, so that columns, indexes, triggers and views stay as they are. What refers to a
-- row that goes is moved first, through as many tables as refer to one another. What the script does not know it names, and then changes nothing
-- (`refused: ..`, status 1). All is one transaction. Further options, each as `-cmd '.parameter set :NAME VALUE'`:
--
--     :settled yes            the right key is the settled one: keys with an en passant square that no pawn can use are merged too, and refused then
--     :wins kept              where the rows of one position differ in further columns, those of the right key's row stay (or of the first name's)
--     :also TABLE.COLUMN,..   columns that refer to `position` without a foreign key
--     :leave TABLE.COLUMN,..  columns that hold second names and are to keep them
--
-- A name that is no FEN text has no key and is left; second-names.sql shows it.
.bail on
.headers off
.mode list
SELECT 1 WHERE menkhodur_version() IS NULL;
-- No cascade, and no order in which rows must change: what the foreign keys say is asked at the end, before the transaction is kept.
PRAGMA foreign_keys = OFF;
CREATE TEMP TABLE ran (changed INTEGER);
INSERT INTO ran SELECT menkhodur_run(iif(:do IS 'it', 'BEGIN IMMEDIATE', 'BEGIN'));

-- The rule, in this one place: the function that gives a text's right key, and the one that the guards ask.
CREATE TEMP TABLE rule AS SELECT 'menkhodur_key' AS key_of, 'menkhodur_is_key' AS is_key, 'key' AS key WHERE :settled IS NULL
UNION ALL SELECT 'menkhodur_settled', 'menkhodur_is_settled', 'settled key' WHERE :settled IS NOT NULL;

CREATE TEMP TABLE refusal (why TEXT);
INSERT INTO refusal SELECT ':do is ' || quote(:do) || ', and only ''it'' is known' WHERE :do IS NOT NULL AND :do IS NOT 'it';
INSERT INTO refusal SELECT ':settled is ' || quote(:settled) || ', and only ''yes'' is known' WHERE :settled IS NOT NULL AND :settled IS NOT 'yes';
INSERT INTO refusal SELECT ':wins is ' || quote(:wins) || ', and only ''kept'' is known' WHERE :wins IS NOT NULL AND :wins IS NOT 'kept';
INSERT INTO refusal SELECT 'foreign keys cannot be turned off: a transaction was open' FROM pragma_foreign_keys WHERE foreign_keys;

-- ---- What the catalog says: columns, foreign keys by pairs of columns, and what is unique

CREATE TEMP TABLE col (tab TEXT COLLATE NOCASE, name TEXT COLLATE NOCASE, type TEXT, filled INTEGER, preset TEXT, place INTEGER, generated INTEGER);
INSERT INTO col SELECT t.name, c.name, c.type, c."notnull", c.dflt_value, c.pk, c.hidden > 1
FROM main.sqlite_schema t, pragma_table_xinfo(t.name, 'main') c
WHERE t.type = 'table' AND t.name NOT LIKE 'sqlite\_%' ESCAPE '\' AND t.sql NOT LIKE 'CREATE VIRTUAL%' AND c.hidden <> 1;
CREATE TEMP VIEW tabs AS SELECT DISTINCT tab AS name FROM col;

CREATE TEMP TABLE foreign_key (tab TEXT COLLATE NOCASE, id INTEGER, name TEXT COLLATE NOCASE, parent TEXT COLLATE NOCASE, parent_name TEXT COLLATE NOCASE);
INSERT INTO foreign_key SELECT t.name, f.id, f."from", c.tab, c.name FROM tabs t, pragma_foreign_key_list(t.name, 'main') f
JOIN col c ON c.tab = f."table" AND (c.name = f."to" OR (f."to" IS NULL AND c.place = f.seq + 1));

-- A primary key that is the rowid has no index.
CREATE TEMP TABLE uniq (tab TEXT COLLATE NOCASE, ind TEXT, partial INTEGER, name TEXT COLLATE NOCASE, coll TEXT);
INSERT INTO uniq SELECT t.name, i.name, i.partial, x.name, x.coll
FROM tabs t, pragma_index_list(t.name, 'main') i, pragma_index_xinfo(i.name, 'main') x WHERE i."unique" AND x.key
UNION ALL SELECT tab, 'rowid', 0, name, 'BINARY' FROM col c
WHERE place = 1 AND upper(type) = 'INTEGER' AND NOT EXISTS (SELECT 1 FROM col o WHERE o.tab = c.tab AND o.place = 2);
CREATE TEMP TABLE alone AS SELECT u.tab, u.name, u.coll FROM uniq u
WHERE NOT u.partial AND u.name IS NOT NULL AND NOT EXISTS (SELECT 1 FROM uniq o WHERE o.tab = u.tab AND o.ind = u.ind AND o.name IS NOT u.name);

INSERT INTO refusal SELECT 'position.fen is not unique by itself, byte for byte: how two rows become one is not known'
WHERE NOT EXISTS (SELECT 1 FROM alone WHERE tab = 'position' AND name = 'fen' AND coll = 'BINARY');
INSERT INTO refusal SELECT 'position.fen is made from other columns' FROM col WHERE tab = 'position' AND name = 'fen' AND generated;
INSERT INTO refusal SELECT 'position.fen itself refers to ' || parent FROM foreign_key WHERE tab = 'position' AND name = 'fen';

-- ---- What refers to `position`: to a name, or to a number that is unique by itself; directly, or by way of a column that does

CREATE TEMP TABLE root (name TEXT COLLATE NOCASE);
INSERT INTO root SELECT 'fen' UNION SELECT f.parent_name FROM foreign_key f JOIN alone a ON a.tab = f.parent AND a.name = f.parent_name
WHERE f.parent = 'position' AND f.parent_name <> 'fen';
INSERT INTO refusal SELECT printf('%s refers to position by %s, of which nothing is unique by itself', f.tab, group_concat(f.parent_name, ' and '))
FROM foreign_key f LEFT JOIN root r ON r.name = f.parent_name WHERE f.parent = 'position' GROUP BY f.tab, f.id HAVING count(r.name) = 0;

CREATE TEMP TABLE refers (root TEXT COLLATE NOCASE, tab TEXT COLLATE NOCASE, name TEXT COLLATE NOCASE);
WITH RECURSIVE r (root, tab, name) AS (
    SELECT root.name, f.tab, f.name FROM foreign_key f JOIN root ON root.name = f.parent_name WHERE f.parent = 'position'
    UNION SELECT 'fen', c.tab, c.name FROM col c
    WHERE (c.tab = 'game_position' AND c.name = 'fen') OR instr(',' || :also || ',', ',' || c.tab || '.' || c.name || ',')
    UNION SELECT r.root, f.tab, f.name FROM r JOIN foreign_key f ON f.parent = r.tab AND f.parent_name = r.name
)
INSERT INTO refers SELECT DISTINCT root, tab, name FROM r;
INSERT INTO refusal SELECT tab || '.' || name || ' refers to more than one column of position' FROM refers GROUP BY tab, name HAVING count(*) > 1;
INSERT INTO refusal SELECT c.tab || '.' || c.name || ' refers to position and is made from other columns'
FROM refers r JOIN col c ON c.tab = r.tab AND c.name = r.name WHERE c.generated;
INSERT INTO refusal SELECT o.name || ' names a column that is not there: ' || o.value
FROM (SELECT ':also' AS name, :also AS value UNION ALL SELECT ':leave', :leave) o
WHERE length(o.value) - length(replace(o.value, ',', '')) + 1 <>
    (SELECT count(*) FROM col WHERE instr(',' || o.value || ',', ',' || tab || '.' || name || ','));

-- ---- The names: those filed, and those that are only referred to. `kept` is the row that stays: the right key's, or else the first name's.

CREATE TEMP TABLE unfiled (fen PRIMARY KEY);
INSERT INTO ran SELECT menkhodur_run(printf('INSERT OR IGNORE INTO temp.unfiled SELECT x."%w" FROM main."%w" x
    WHERE x."%w" IS NOT NULL AND NOT EXISTS (SELECT 1 FROM main.position p WHERE p.fen = x."%w")', name, tab, name, name)) FROM refers WHERE root = 'fen';

CREATE TEMP TABLE second (fen, key TEXT, filed INTEGER, kept);
INSERT INTO ran SELECT menkhodur_run('INSERT INTO temp.second (fen, key, filed) SELECT fen, key, filed
    FROM (SELECT fen, filed, CASE WHEN menkhodur_fault(fen) IS NULL THEN ' || key_of || '(fen) END AS key
          FROM (SELECT fen, 1 AS filed FROM main.position UNION ALL SELECT fen, 0 FROM temp.unfiled))
    WHERE key IS NULL OR key IS NOT fen') FROM rule;
CREATE TEMP TABLE faulty AS SELECT count(*) AS n FROM second WHERE key IS NULL;
DELETE FROM second WHERE key IS NULL;
CREATE INDEX temp.second_fen ON second (fen);
CREATE INDEX temp.second_key ON second (key, fen);
UPDATE second SET kept = CASE WHEN EXISTS (SELECT 1 FROM main.position p WHERE p.fen = second.key) THEN key
    ELSE (SELECT min(s.fen) FROM second s WHERE s.key = second.key AND s.filed) END;

-- Of each root, which value becomes which.
CREATE TEMP TABLE moved (root TEXT COLLATE NOCASE, old, new);
INSERT INTO moved SELECT 'fen', fen, key FROM second;
INSERT INTO ran SELECT menkhodur_run(printf('INSERT INTO temp.moved SELECT %Q, o."%w", k."%w" FROM temp.second s
    JOIN main.position o ON o.fen = s.fen JOIN main.position k ON k.fen = s.kept WHERE s.filed AND s.fen IS NOT s.kept', name, name, name))
FROM root WHERE name <> 'fen';
CREATE INDEX temp.moved_old ON moved (root, old);

-- A column's value as it will be, and whether it moves. `+` leaves the column's type out, which would keep the index from being used.
CREATE TEMP VIEW mapped AS SELECT c.tab, c.name, r.root, iif(r.root IS NULL, printf('x."%w"', c.name),
    printf('coalesce((SELECT m.new FROM temp.moved m WHERE m.root = %Q AND m.old = +x."%w"), x."%w")', r.root, c.name, c.name)) AS value,
    printf('x."%w" COLLATE BINARY IN (SELECT old FROM temp.moved WHERE root = %Q)', c.name, r.root) AS moves
FROM col c LEFT JOIN refers r ON r.tab = c.tab AND r.name = c.name;

-- ---- Further columns: two rows of one position become one, and nothing that one of them says may be lost

-- A number that others refer to is no further column: what refers to it is moved. A default counts if it is a plain number or text.
CREATE TEMP TABLE further (n INTEGER PRIMARY KEY, name TEXT, value TEXT, preset TEXT);
INSERT INTO further (name, value, preset) SELECT c.name, m.value,
    iif(c.preset GLOB '''*''' OR (c.preset GLOB '*[0-9]' AND c.preset NOT GLOB '*[^-.0-9]*'), c.preset, 'NULL')
FROM col c JOIN mapped m ON m.tab = c.tab AND m.name = c.name
WHERE c.tab = 'position' AND NOT c.generated AND NOT EXISTS (SELECT 1 FROM root r WHERE r.name = c.name);

-- The rows of each position that has several.
CREATE TEMP TABLE member AS SELECT key, fen, kept FROM second WHERE filed
UNION SELECT key, key, key FROM second WHERE filed AND kept = key;
DELETE FROM member WHERE key IN (SELECT key FROM member GROUP BY key HAVING count(*) = 1);
CREATE INDEX temp.member_key ON member (key, fen);

-- In which columns `other` says what `fen` does not: another value that is neither NULL nor the default.
CREATE TEMP TABLE more (key TEXT, fen, other, columns TEXT);
INSERT INTO ran SELECT menkhodur_run('INSERT INTO temp.more SELECT * FROM (SELECT a.key, a.fen, b.fen, ' ||
    group_concat(printf('iif(b%d IS a%d COLLATE BINARY AND typeof(b%d) = typeof(a%d) OR b%d IS NULL OR b%d IS %s, '''', %Q)',
        n, n, n, n, n, n, preset, name || ' '), ' || ') || ' AS columns FROM temp.member a JOIN temp.member b ON b.key = a.key AND b.fen IS NOT a.fen
    JOIN (SELECT fen' || group_concat(printf(', %s AS a%d', value, n), '') || ' FROM main.position x) p ON p.fen = a.fen
    JOIN (SELECT fen' || group_concat(printf(', %s AS b%d', value, n), '') || ' FROM main.position x) q ON q.fen = b.fen) WHERE columns <> ''''')
FROM further HAVING count(*) > 0;
CREATE INDEX temp.more_fen ON more (key, fen);

-- The row whose further columns stay: one to which no other adds anything, the kept one first.
CREATE TEMP TABLE winner AS SELECT key, kept, iif(:wins IS 'kept', kept, (SELECT m.fen FROM member m WHERE m.key = g.key
    AND NOT EXISTS (SELECT 1 FROM more WHERE more.key = m.key AND more.fen IS m.fen) ORDER BY m.fen IS NOT m.kept, m.fen LIMIT 1)) AS fen
FROM (SELECT DISTINCT key, kept FROM member) g;
INSERT INTO refusal SELECT printf('%d positions have rows that differ in further columns: settle them by hand, or say :wins kept', count(*))
FROM winner WHERE fen IS NULL HAVING count(*) > 0;
INSERT INTO refusal SELECT printf('  %s and %s differ in %s', more.fen, more.other, trim(more.columns))
FROM winner w JOIN more ON more.key = w.key AND more.fen IS w.kept WHERE w.fen IS NULL ORDER BY more.fen, more.other LIMIT 20;

-- ---- What would meet in a unique index when it is moved; columns that hold second names without a foreign key; names of guards that are taken

CREATE TEMP TABLE counted (what TEXT, tab TEXT COLLATE NOCASE, name TEXT, n INTEGER);
INSERT INTO ran SELECT menkhodur_run(printf('INSERT INTO temp.counted SELECT ''meet'', %Q, %Q, count(*)
    FROM (SELECT max(%s) AS moves FROM main."%w" x WHERE %s GROUP BY %s HAVING count(*) > 1) WHERE moves', tab, names, moves, tab, filled, vals))
FROM (SELECT u.tab, group_concat(u.name, ' and ') AS names, group_concat(iif(m.root IS NULL, NULL, m.moves), ' OR ') AS moves,
          group_concat(printf('%s COLLATE "%w"', m.value, u.coll), ', ') AS vals, group_concat(printf('x."%w" IS NOT NULL', u.name), ' AND ') AS filled
      FROM uniq u JOIN mapped m ON m.tab = u.tab AND m.name = u.name
      WHERE u.tab <> 'position' AND NOT EXISTS (SELECT 1 FROM uniq e WHERE e.tab = u.tab AND e.ind = u.ind AND (e.name IS NULL OR e.partial))
      GROUP BY u.tab, u.ind)
WHERE moves IS NOT NULL;
INSERT INTO refusal SELECT DISTINCT printf('%s: %d times several rows would have the same %s, which is unique there: settle them by hand', tab, n, name)
FROM counted WHERE what = 'meet' AND n > 0;

INSERT INTO ran SELECT menkhodur_run(printf('INSERT INTO temp.counted SELECT ''unknown'', %Q, %Q, count(*) FROM main."%w" x
    WHERE x."%w" COLLATE BINARY IN (SELECT old FROM temp.moved WHERE root = ''fen'')', m.tab, m.name, m.tab, m.name))
FROM mapped m JOIN col c ON c.tab = m.tab AND c.name = m.name
WHERE m.root IS NULL AND NOT c.generated AND c.type NOT LIKE '%INT%' AND c.type NOT LIKE '%REAL%' AND NOT (c.tab = 'position' AND c.name = 'fen')
    AND instr(',' || ifnull(:leave, '') || ',', ',' || c.tab || '.' || c.name || ',') = 0;
INSERT INTO refusal SELECT printf('%s.%s holds %d second names, and no foreign key says that it refers to position: ', tab, name, n) ||
    printf(':also %s.%s moves them, :leave %s.%s keeps them', tab, name, tab, name) FROM counted WHERE what = 'unknown' AND n > 0;

-- A store that keeps settled keys is not turned back: then it would take two names for one position.
INSERT INTO refusal SELECT DISTINCT tbl_name || ' keeps settled keys: say :settled yes' FROM main.sqlite_schema
WHERE :settled IS NULL AND tbl_name COLLATE NOCASE IN ('position', 'game_position') AND (sql LIKE '%CHECK (menkhodur_is_settled(fen))%'
    OR sql LIKE '%NOT menkhodur_is_settled(NEW.fen)%RAISE(ABORT, ''one_name: %');

-- The triggers of store.sql, on the two tables that have a rule of their own. One that an earlier script has left, with another text, is made anew.
CREATE TEMP TABLE guard AS SELECT g.name, g.tab, s.type, s.sql AS before, s.tbl_name = g.tab COLLATE NOCASE AS on_it,
    printf('CREATE TRIGGER %s BEFORE %s ON %s WHEN %sNOT %s(NEW.fen)
BEGIN SELECT RAISE(ABORT, ''one_name: not the %s of its position''); END', g.name, g.clause, g.tab,
        iif(g.tab = 'position' OR c.filled, '', 'NEW.fen IS NOT NULL AND '), r.is_key, r.key) AS sql
FROM rule r, (SELECT 'position' AS tab, 'one_name_insert' AS name, 'INSERT' AS clause UNION ALL SELECT 'position', 'one_name_update', 'UPDATE OF fen'
    UNION ALL SELECT 'game_position', 'game_position_one_name_insert', 'INSERT'
    UNION ALL SELECT 'game_position', 'game_position_one_name_update', 'UPDATE OF fen') g
    JOIN col c ON c.tab = g.tab AND c.name = 'fen' LEFT JOIN main.sqlite_schema s ON s.name = g.name COLLATE NOCASE;
INSERT INTO refusal SELECT name || ' is there and is no trigger of this store' FROM guard
WHERE type <> 'trigger' OR NOT on_it OR before NOT LIKE '%(NEW.fen)%RAISE(ABORT, ''one_name: %';
DELETE FROM guard WHERE before = sql;

-- ---- What it comes to

INSERT INTO ran SELECT menkhodur_run(printf('INSERT INTO temp.counted SELECT ''refers'', %Q, %Q, count(*) FROM main."%w" x WHERE %s', tab, name, tab, moves))
FROM mapped WHERE root IS NOT NULL;
INSERT INTO ran SELECT menkhodur_run(printf('INSERT INTO temp.counted SELECT ''rows'', %Q, '''', count(*) FROM main."%w"', name, name))
FROM tabs WHERE name = 'position' OR EXISTS (SELECT 1 FROM refers r WHERE r.tab = tabs.name);
CREATE TEMP TABLE total AS SELECT count(*) FILTER (WHERE fen IS kept) AS renamed, count(*) FILTER (WHERE fen IS NOT kept) AS merged FROM second WHERE filed;

SELECT printf('the trigger %s of %s fires as for any other change', s.name, s.tbl_name) FROM main.sqlite_schema s
WHERE s.type = 'trigger' AND EXISTS (SELECT 1 FROM counted c WHERE c.what = 'rows' AND c.tab = s.tbl_name) AND s.sql NOT LIKE '%RAISE(ABORT, ''one_name: %';
SELECT 'refused: ' || why FROM refusal;
SELECT DISTINCT printf('%s has the unique index %s, with a condition or an expression: whether rows meet in it shows only at the change', u.tab, u.ind)
FROM uniq u JOIN refers r ON r.tab = u.tab WHERE u.tab <> 'position' AND (u.partial OR u.name IS NULL);
CREATE TEMP TABLE stop (why TEXT);
CREATE TEMP TRIGGER refused BEFORE INSERT ON stop WHEN NEW.why = 'refused'
BEGIN SELECT RAISE(ABORT, 'cure.sql is refused, for the reasons above: nothing is changed'); END;
CREATE TEMP TRIGGER faulty BEFORE INSERT ON stop WHEN NEW.why = 'faulty'
BEGIN SELECT RAISE(ABORT, 'some names have no key: second-names.sql shows them'); END;
INSERT INTO stop SELECT 'refused' WHERE EXISTS (SELECT 1 FROM refusal);

-- ---- The change

CREATE TEMP VIEW broken AS SELECT t.tab, k.parent, k.fkid, count(*) AS n FROM counted t, pragma_foreign_key_check(t.tab, 'main') k
WHERE t.what = 'rows' GROUP BY 1, 2, 3;
CREATE TEMP TABLE broken_before AS SELECT * FROM broken WHERE :do IS 'it';

CREATE TEMP TABLE step (number INTEGER PRIMARY KEY, sql TEXT);
INSERT INTO step (sql) SELECT 'DROP TRIGGER main.' || name FROM guard WHERE before IS NOT NULL;
INSERT INTO step (sql) SELECT printf('UPDATE OR ABORT main."%w" AS x SET "%w" = %s WHERE %s', tab, name, value, moves)
FROM mapped WHERE root IS NOT NULL AND tab <> 'position';
INSERT INTO step (sql) SELECT 'CREATE TEMP TABLE carried AS SELECT w.key AS fen' || group_concat(printf(', x."%w" AS f%d', name, n), '') ||
    ' FROM temp.winner w JOIN main.position x ON x.fen = w.fen WHERE w.fen IS NOT w.kept' FROM further HAVING count(*) > 0;
INSERT INTO step (sql) SELECT 'DELETE FROM main.position WHERE fen IN (SELECT fen FROM temp.second WHERE filed AND fen IS NOT kept)';
INSERT INTO step (sql) SELECT 'UPDATE OR ABORT main.position SET fen = (SELECT s.key FROM temp.second s WHERE s.fen = position.fen)
    WHERE fen IN (SELECT fen FROM temp.second WHERE filed AND fen IS kept)';
INSERT INTO step (sql) SELECT printf('UPDATE OR ABORT main.position SET (%s) = (SELECT %s FROM temp.carried c WHERE c.fen = position.fen)
    WHERE fen IN (SELECT fen FROM temp.carried)', group_concat(printf('"%w"', name), ', '), group_concat(printf('f%d', n), ', '))
FROM further HAVING count(*) > 0;
INSERT INTO step (sql) SELECT printf('UPDATE OR ABORT main.position AS x SET "%w" = %s WHERE %s', name, value, moves)
FROM mapped WHERE root IS NOT NULL AND tab = 'position';
INSERT INTO step (sql) SELECT sql FROM guard;
INSERT INTO ran SELECT menkhodur_run(sql) FROM step WHERE :do IS 'it' ORDER BY number;

-- What is there now must be what was counted, whatever triggers have done.
INSERT INTO ran SELECT menkhodur_run('INSERT INTO temp.refusal SELECT count(*) || '' second names are still there'' FROM main.position
    WHERE menkhodur_fault(fen) IS NULL AND ' || key_of || '(fen) IS NOT fen HAVING count(*) > 0') FROM rule WHERE :do IS 'it';
INSERT INTO ran SELECT menkhodur_run(printf('INSERT INTO temp.refusal SELECT printf(''%%s has %%d rows and not %%d'', %Q, count(*), %d)
    FROM main."%w" HAVING count(*) <> %d', tab, n, tab, n))
FROM (SELECT tab, n - iif(tab = 'position', merged, 0) AS n FROM counted, total WHERE what = 'rows') WHERE :do IS 'it';
INSERT INTO ran SELECT menkhodur_run(printf('INSERT INTO temp.refusal SELECT printf(''%%s.%%s: %%d references were not moved'', %Q, %Q, count(*))
    FROM main."%w" x WHERE %s HAVING count(*) > 0', tab, name, tab, moves)) FROM mapped WHERE root IS NOT NULL AND :do IS 'it';
INSERT INTO refusal SELECT printf('%s has %d rows that refer to nothing in %s, and had %d', a.tab, a.n, a.parent, ifnull(b.n, 0))
FROM broken a LEFT JOIN broken_before b ON b.tab = a.tab AND b.parent = a.parent AND b.fkid = a.fkid WHERE :do IS 'it' AND a.n > ifnull(b.n, 0);
SELECT 'refused: when all was done, ' || why FROM refusal;
INSERT INTO stop SELECT 'refused' WHERE EXISTS (SELECT 1 FROM refusal);
COMMIT;

SELECT printf(iif(:do IS 'it', '%d positions were filed under second names alone and have their %s now',
    '%d positions are filed under second names alone and would get their %s'), renamed, key) FROM total, rule;
SELECT printf('%d second names %s merged into the row of their %s', merged, iif(:do IS 'it', 'were', 'would be'), key) FROM total, rule;
SELECT printf('%s.%s: %d references %s moved to the right key', tab, name, n, iif(:do IS 'it', 'were', 'would be')) FROM counted WHERE what = 'refers';
SELECT printf('%s %s second names', tab, iif(:do IS 'it', 'refuses', 'would refuse')) || iif(:do IS 'it', ' now', '') FROM guard GROUP BY tab ORDER BY tab;
SELECT printf('%d names are no FEN text, have no key, and are left', n) FROM faulty WHERE n > 0;
SELECT printf('%d positions, each under its %s', count(*), (SELECT key FROM rule)) FROM main.position
WHERE :do IS 'it' AND menkhodur_fault(fen) IS NULL HAVING :do IS 'it';
SELECT 'nothing was changed: :do it changes' WHERE :do IS NULL;
INSERT INTO stop SELECT 'faulty' FROM faulty WHERE n > 0 AND :do IS 'it';
