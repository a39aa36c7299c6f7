//! Asks the crate and the archive what docs/DIFFERENCES.md tells of them, row by row of `table`, and fails if either answers anything else.

mod ask;

use std::process::exit;

const TABLE: &str = include_str!("../table");

/// A row of the table: what is asked, of what, and the two answers told.
struct Row<'a> {
    what: &'a str,
    input: &'a str,
    crate_told: &'a str,
    ours_told: &'a str,
}

fn quoted(cell: &str) -> Option<&str> {
    cell.strip_prefix('`')?.strip_suffix('`')
}

fn row(line: &str) -> Option<Row<'_>> {
    let cells: Vec<&str> = line.split(" | ").collect();
    let [what, input, crate_told, ours_told] = cells[..] else { return None };
    Some(Row { what, input: quoted(input)?, crate_told: quoted(crate_told)?, ours_told: quoted(ours_told)? })
}

/// Asks both. Says whether both answered as told.
fn check(row: &Row) -> Result<(), String> {
    let (of_crate, of_ours) = ask::both(row.what, row.input)?;
    if of_crate != row.crate_told || of_ours != row.ours_told {
        return Err(format!("the crate answers `{}`, we `{}`", of_crate, of_ours));
    }
    Ok(())
}

fn main() {
    let (mut rows, mut differ, mut wrong) = (0, 0, 0);
    for line in TABLE.lines().filter(|l| !l.is_empty() && !l.starts_with('#')) {
        let told = row(line).ok_or("not a row of the table".to_string()).and_then(|row| {
            check(&row)?;
            differ += (row.crate_told != row.ours_told) as u32;
            Ok(())
        });
        rows += 1;
        if let Err(why) = told {
            wrong += 1;
            println!("{}\n    {}", line, why);
        }
    }
    println!("differences: {} rows, in {} of them crate and archive differ, {} are not as told", rows, differ, wrong);
    if rows == 0 || wrong > 0 {
        exit(1);
    }
}
