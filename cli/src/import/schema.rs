//! The tables of a store, and whether a database that is there has them. `position` and `game_position` are what the scripts of the two databases make
//! with settled keys: their SQL stands there, and is taken from there.

const SQLITE: &str = include_str!("../../../host/sqlite/store.sql");
const POSTGRES: &str = include_str!("../../../host/postgres/store.sql");

/// Which names a table takes.
#[derive(Clone, Copy, Debug, PartialEq, Eq)]
pub enum Rule {
    Settled,
    Plain,
    None,
}

/// A table that is there.
#[derive(Debug, PartialEq, Eq)]
pub struct Table {
    pub name: String,
    pub rule: Rule,
    pub columns: Vec<Column>,
}

#[derive(Debug, PartialEq, Eq)]
pub struct Column {
    pub name: String,
    /// Its place in the primary key, from 1; 0 if it has none.
    pub key: i64,
    /// Whoever adds a row must say it.
    pub needed: bool,
}

/// Where a store is.
#[derive(Clone, Copy, Debug, PartialEq, Eq)]
pub enum Base {
    Sqlite,
    Postgres,
    /// `position` has partitions, which may be on other servers.
    Partitioned,
}

impl Base {
    fn scripts(self) -> &'static str {
        if self == Base::Sqlite { "host/sqlite" } else { "host/postgres" }
    }

    /// The option of those scripts.
    fn settled(self) -> &'static str {
        if self == Base::Sqlite { ":settled yes" } else { "settled=yes" }
    }

    fn integer(self) -> &'static str {
        if self == Base::Sqlite { "INTEGER" } else { "bigint" }
    }

    fn blob(self) -> &'static str {
        if self == Base::Sqlite { "BLOB" } else { "bytea" }
    }
}

pub const SOURCE: [&str; 7] = ["id", "name", "bytes", "digest", "done", "games_digest", "ended"];
pub const GAME: [&str; 16] = [
    "id", "source", "number", "line", "event", "site", "date", "round", "white", "black", "result", "tags", "moves", "roll", "mark",
    VARIATIONS,
];
/// The last column of `game`, which stores of before do not have.
pub const VARIATIONS: &str = "variations";
/// What is read of a game `g` of a source `s`, in the order of a game that is held, its variations last.
pub const HELD: &str = "s.name, g.number, g.line, g.event, g.site, g.date, g.round, g.white, g.black, g.result, g.tags, g.roll";
pub const REFUSED: [&str; 8] = ["source", "number", "line", "at_line", "at_column", "answer", "kind", "text"];

/// SQL that makes what a database lacks to be a store, each statement by itself; none if it lacks nothing. Or why it is no store that an import files
/// into.
pub fn lacking(base: Base, found: &[Table]) -> Result<Vec<String>, String> {
    let there = |name: &str| found.iter().find(|table| table.name == name);
    let mut making = vec![];
    for name in ["position", "game_position"] {
        match there(name) {
            Some(table) => judge_names(base, table)?,
            None => making.extend(names(base).into_iter().filter(|statement| is_of(statement, name))),
        }
    }
    for (name, columns) in [("source", &SOURCE[..]), ("game", &GAME[..]), ("refused", &REFUSED[..])] {
        match there(name) {
            Some(table) if is_of_before(table) => making.push(format!("ALTER TABLE game ADD COLUMN {VARIATIONS} TEXT")),
            Some(table) => judge_columns(table, columns)?,
            None => making.extend(games(base, name)),
        }
    }
    Ok(making)
}

/// The SQL of the tables of names and of their triggers, as a database of SQLite keeps what the script has made.
pub fn made() -> Vec<String> {
    let statements = names(Base::Sqlite).into_iter().filter(|statement| !statement.starts_with("CREATE INDEX"));
    statements.map(|statement| statement.trim_end_matches(';').to_string()).collect()
}

/// The statements of the scripts.
fn names(base: Base) -> Vec<String> {
    let cut = |text: &'static str, from: &str, to: &str| {
        text.split_once(from).and_then(|(_, rest)| rest.split_once(to)).map_or("", |(text, _)| text)
    };
    let text = match base {
        Base::Sqlite => cut(SQLITE, "menkhodur_run(replace(replace('", "', '$is_key'").replace("''", "'"),
        Base::Postgres | Base::Partitioned => cut(POSTGRES, "EXTENSION IF NOT EXISTS menkhodur;", "COMMIT;").to_string(),
    };
    let text = text.replace("$is_key", "menkhodur_is_settled").replace("$key", "settled key").replace(":domain", "fen_position");
    // No foreign key refers to a table with partitions on other servers.
    let text = if base == Base::Partitioned { text.replace(" REFERENCES position (fen)", "") } else { text };
    let statements = text.split("\nCREATE ").map(str::trim).filter(|statement| !statement.is_empty());
    statements.map(|statement| format!("CREATE {statement}")).collect()
}

/// Whether a statement is one of a table's: what is between `position` and `game_position` is told by the longer name.
fn is_of(statement: &str, table: &str) -> bool {
    statement.contains("game_position") == (table == "game_position")
}

/// The statements of the other tables.
fn games(base: Base, table: &str) -> Vec<String> {
    let (integer, blob) = (base.integer(), base.blob());
    match table {
        "source" => vec![format!(
            "CREATE TABLE source (
    id {integer} PRIMARY KEY,
    name TEXT NOT NULL UNIQUE,
    bytes {integer},
    digest {integer},
    done {integer} NOT NULL,
    games_digest {integer} NOT NULL,
    ended {integer} NOT NULL
)"
        )],
        "game" => vec![
            format!(
                "CREATE TABLE game (
    id {integer} PRIMARY KEY,
    source {integer} NOT NULL REFERENCES source (id),
    number {integer} NOT NULL,
    line {integer} NOT NULL,
    event TEXT, site TEXT, date TEXT, round TEXT, white TEXT, black TEXT, result TEXT,
    tags TEXT NOT NULL,
    moves {integer} NOT NULL,
    roll {blob} NOT NULL,
    mark {integer} NOT NULL,
    {VARIATIONS} TEXT,
    UNIQUE (source, number)
)"
            ),
            "CREATE INDEX game_mark ON game (mark)".to_string(),
        ],
        _ => vec![format!(
            "CREATE TABLE refused (
    source {integer} NOT NULL REFERENCES source (id),
    number {integer} NOT NULL,
    line {integer} NOT NULL,
    at_line {integer} NOT NULL,
    at_column {integer} NOT NULL,
    answer {integer} NOT NULL,
    kind TEXT NOT NULL,
    text TEXT NOT NULL,
    PRIMARY KEY (source, number)
)"
        )],
    }
}

fn judge_names(base: Base, table: &Table) -> Result<(), String> {
    let name = table.name.as_str();
    let scripts = base.scripts();
    let cure = format!("{scripts}/cure.sql with {} gives it that rule, on a copy first (docs/STORE.md, Which key)", base.settled());
    match table.rule {
        Rule::Settled => {}
        Rule::Plain => return Err(format!("the table {name} keeps plain keys, and an import files settled ones: {cure}")),
        Rule::None => return Err(format!("the table {name} has no rule for its names, and an import files under settled keys: {cure}")),
    }
    let mut keys: Vec<_> = table.columns.iter().filter(|column| column.key > 0).collect();
    keys.sort_by_key(|column| column.key);
    let keys: Vec<_> = keys.iter().map(|column| column.name.as_str()).collect();
    let wanted: &[&str] = match (name, base) {
        // Each partition's own server keeps its keys unique.
        ("position", Base::Partitioned) => &keys,
        ("position", _) => &["fen"],
        _ => &["game", "ply"],
    };
    let known = ["fen", "game", "ply"];
    let other = table.columns.iter().find(|column| column.needed && !known.contains(&column.name.as_str()));
    let has_name = table.columns.iter().any(|column| column.name == "fen");
    match other {
        _ if keys != wanted || !has_name => {
            Err(format!("the table {name} is not as {scripts}/store.sql makes it: another store is needed"))
        }
        Some(other) => {
            Err(format!("the table {name} needs a value for {}, which an import does not know: another store is needed", other.name))
        }
        None => Ok(()),
    }
}

/// Whether it is the table of games of an import that kept no variations: it lacks the last column alone.
fn is_of_before(table: &Table) -> bool {
    table.name == "game" && table.columns.iter().map(|column| column.name.as_str()).eq(GAME[..GAME.len() - 1].iter().copied())
}

fn judge_columns(table: &Table, wanted: &[&str]) -> Result<(), String> {
    let names: Vec<_> = table.columns.iter().map(|column| column.name.as_str()).collect();
    if names == wanted {
        return Ok(());
    }
    let (held, needed) = (names.join(", "), wanted.join(", "));
    Err(format!(
        "the table {} is no import's: it has the columns {held}, and an import's has {needed}: another store is needed",
        table.name
    ))
}

#[cfg(test)]
mod tests {
    use super::*;

    fn column(name: &str, key: i64, needed: bool) -> Column {
        Column { name: name.to_string(), key, needed }
    }

    fn position() -> Table {
        Table { name: "position".into(), rule: Rule::Settled, columns: vec![column("fen", 1, true)] }
    }

    fn places() -> Table {
        let columns = vec![column("game", 1, true), column("ply", 2, true), column("fen", 0, true)];
        Table { name: "game_position".into(), rule: Rule::Settled, columns }
    }

    fn begins(statements: &[String]) -> Vec<String> {
        statements.iter().map(|statement| statement.split_whitespace().take(3).collect::<Vec<_>>().join(" ")).collect()
    }

    #[test]
    fn the_scripts_are_found_and_said_with_settled_keys() {
        let sqlite = names(Base::Sqlite);
        let begun = begins(&sqlite);
        assert_eq!(begun[..3], ["CREATE TABLE position", "CREATE TABLE game_position", "CREATE INDEX game_position_fen"]);
        assert_eq!((begun.len(), sqlite.iter().filter(|text| text.starts_with("CREATE TRIGGER")).count()), (7, 4));
        for statement in &sqlite {
            assert!(!statement.contains('$') && !statement.contains("''") && statement.ends_with(';'), "{statement}");
            assert!(statement.contains("menkhodur_is_settled(") || statement.starts_with("CREATE INDEX"), "{statement}");
        }
        let postgres = names(Base::Postgres);
        assert_eq!(begins(&postgres), ["CREATE TABLE position", "CREATE TABLE game_position", "CREATE INDEX game_position_fen"]);
        assert!(postgres[0].contains("fen fen_position PRIMARY KEY") && postgres[1].contains("REFERENCES position (fen)"));
        assert!(names(Base::Partitioned)[1].contains("fen fen_position NOT NULL,"));
    }

    #[test]
    fn what_is_there_is_not_made() {
        let all = lacking(Base::Sqlite, &[]).unwrap();
        assert_eq!(all.len(), 7 + 4);
        let rest = lacking(Base::Sqlite, &[position()]).unwrap();
        assert_eq!(begins(&rest)[..2], ["CREATE TABLE game_position", "CREATE INDEX game_position_fen"]);
        assert_eq!(rest.len(), 4 + 4);
        let games = lacking(Base::Postgres, &[position(), places()]).unwrap();
        let expected = ["CREATE TABLE source", "CREATE TABLE game", "CREATE INDEX game_mark", "CREATE TABLE refused"];
        assert_eq!(begins(&games), expected);
        let whole = [("source", &SOURCE[..]), ("game", &GAME[..]), ("refused", &REFUSED[..])].map(|(name, columns)| {
            let columns = columns.iter().map(|name| column(name, 0, false)).collect();
            Table { name: name.to_string(), rule: Rule::None, columns }
        });
        let whole: Vec<_> = whole.into_iter().chain([position(), places()]).collect();
        assert_eq!(lacking(Base::Sqlite, &whole), Ok(vec![]));
        let before = whole.into_iter().map(|table| match table.name.as_str() {
            "game" => Table { columns: table.columns.into_iter().take(GAME.len() - 1).collect(), ..table },
            _ => table,
        });
        assert_eq!(
            lacking(Base::Postgres, &before.collect::<Vec<_>>()),
            Ok(vec!["ALTER TABLE game ADD COLUMN variations TEXT".to_string()])
        );
    }

    #[test]
    fn what_is_no_store_of_settled_keys_is_told() {
        let told = |table: Table| lacking(Base::Sqlite, &[table]).unwrap_err();
        let plain = told(Table { rule: Rule::Plain, ..position() });
        assert!(
            plain.starts_with("the table position keeps plain keys, and an import files settled ones: host/sqlite/cure.sql"),
            "{plain}"
        );
        assert!(told(Table { rule: Rule::None, ..places() }).starts_with("the table game_position has no rule for its names"));
        let numbered = Table { columns: vec![column("id", 1, false), column("fen", 0, true)], ..position() };
        assert!(told(numbered).starts_with("the table position is not as host/sqlite/store.sql makes it"));
        let nameless = Table { columns: vec![column("game", 1, true), column("ply", 2, true)], ..places() };
        assert!(told(nameless).contains("game_position is not as"));
        let more = |needed| Table { columns: vec![column("note", 0, needed), column("fen", 1, true)], ..position() };
        assert!(lacking(Base::Sqlite, &[more(false)]).is_ok());
        assert!(told(more(true)).starts_with("the table position needs a value for note"));
        let other = Table { name: "game".into(), rule: Rule::None, columns: vec![column("id", 1, true)] };
        assert!(told(other).starts_with("the table game is no import's: it has the columns id, and an import's has id, source, number"));
    }
}
