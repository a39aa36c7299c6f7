//! What is counted, and how the end of an import tells it.

use super::loose::{Counts, KINDS};
use crate::json::Object;
use crate::options::Status;
use crate::told;

/// What came of the games. With a store all but `before` and `notes` is what a commit has told.
#[derive(Clone, Copy, Debug, Default, PartialEq, Eq)]
pub struct Tally {
    pub filed: u64,
    /// Games that an earlier run was done with.
    pub before: u64,
    pub skipped: u64,
    pub refused: u64,
    /// Of the games that are filed.
    pub moves: u64,
    pub positions: u64,
    pub new: u64,
    /// Contradictions and duplicates that were told.
    pub notes: u64,
    pub loose: Counts,
}

/// How a run has ended.
pub struct End {
    pub dry: bool,
    /// Whether every input was read to its end.
    pub whole: bool,
    /// Why it was stopped, if it was.
    pub stopped: Option<String>,
}

impl Tally {
    pub fn games(&self) -> u64 {
        self.filed + self.before + self.skipped + self.refused
    }

    pub fn add(&mut self, more: &Tally) {
        self.filed += more.filed;
        self.before += more.before;
        self.skipped += more.skipped;
        self.refused += more.refused;
        self.moves += more.moves;
        self.positions += more.positions;
        self.new += more.new;
        self.notes += more.notes;
        self.loose.add_all(&more.loose);
    }

    pub fn status(&self) -> Status {
        if self.refused + self.notes == 0 { Status::Well } else { Status::Found }
    }

    /// The last line of standard error, of one form for scripts, whatever the counts are.
    pub fn shown(&self, end: &End) -> String {
        let Tally { filed, before, skipped, refused, moves, positions, new, .. } = self;
        let games = self.games();
        let counted = match end.dry {
            true => format!("import: dry run: {games} games, {filed} accepted, {refused} refused; {moves} moves, {positions} positions"),
            false => {
                let counted = format!("{games} games, {filed} filed, {before} filed before, {skipped} skipped, {refused} refused");
                format!("import: {counted}; {moves} moves, {positions} positions, {new} new")
            }
        };
        let stopped = end.stopped.as_ref().map_or(String::new(), |why| format!("; stopped: {why}"));
        counted + &stopped + told::incomplete(end.whole)
    }

    /// What `--loose` has taken, if it has taken anything.
    pub fn loosely(&self) -> Option<String> {
        let taken = KINDS.iter().zip(self.loose.0).filter(|(_, count)| *count > 0);
        let taken: Vec<String> = taken.map(|(kind, count)| format!("{count} {}", kind.replace('_', " "))).collect();
        (!taken.is_empty()).then(|| format!("import: --loose has taken {}", taken.join(", ")))
    }

    /// The last object of `--json`.
    pub fn object(&self, end: &End, loose: bool) -> String {
        let Tally { filed, before, skipped, refused, moves, positions, new, .. } = self;
        let object = Object::new().raw("games", self.games());
        let object = match end.dry {
            true => object.raw("accepted", filed).raw("refused", refused).raw("moves", moves).raw("positions", positions),
            false => {
                let object = object.raw("filed", filed).raw("filed_before", before).raw("skipped", skipped).raw("refused", refused);
                object.raw("moves", moves).raw("positions", positions).raw("new", new)
            }
        };
        let object = object.raw("notes", self.notes).raw("dry_run", end.dry);
        let kinds = || KINDS.iter().zip(self.loose.0).fold(Object::new(), |object, (kind, count)| object.raw(kind, count)).end();
        let object = if loose { object.raw("loose", kinds()) } else { object };
        object.text_or_null("stopped", end.stopped.as_deref()).raw("complete", end.whole && end.stopped.is_none()).end()
    }
}
