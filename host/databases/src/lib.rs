//! SQLite and PostgreSQL behind safe types, by their own C libraries.
//!
//! The libraries are found when a database is opened, `libsqlite3.so.0` and `libpq.so.5`: a program builds and runs without either, and only who wants a
//! database is told which package is missing. All that is `unsafe` stands in this package.

mod library;
pub mod postgres;
pub mod sqlite;

/// A statement in a message: on one line, and only the front of a long one.
fn shown(statement: &str) -> String {
    const MOST: usize = 120;
    let line = statement.split_whitespace().collect::<Vec<_>>().join(" ");
    match line.char_indices().nth(MOST) {
        Some((end, _)) => format!("{}..", &line[..end]),
        None => line,
    }
}

#[cfg(test)]
mod tests {
    /// Says that the test that runs was skipped, by its name: tools/cargo-test shows it, and the gate tells it again.
    pub fn skipped(why: &str) {
        println!("skipped: host/databases: {}: {why}", std::thread::current().name().unwrap_or("a test"));
    }

    #[test]
    fn a_statement_is_shown_on_one_line_and_not_whole_if_it_is_long() {
        assert_eq!(super::shown("SELECT 1,\n    2"), "SELECT 1, 2");
        assert_eq!(super::shown(&"Ж".repeat(120)), "Ж".repeat(120));
        assert_eq!(super::shown(&"Ж".repeat(121)), "Ж".repeat(120) + "..");
    }
}
