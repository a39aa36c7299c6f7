//! The page of a stored log or of a roll: its score sheet, and a diagram of each position.

use super::{judged, not_good, page};
use crate::entry::Entry;
use crate::lists::Lists;
use crate::markup::{Markup, element};
use crate::stored::{Fault, Stored};
use crate::told;
use std::ffi::OsString;

pub fn of(entries: &[Entry], fault: Option<(&Stored, &Fault)>, lists: Option<&Lists>, words: &[OsString]) -> Markup {
    let (actions, moves) = entries.last().map_or((0, 0), |last| (last.action as u64, last.moves as u64));
    let title = format!("A game of {} and {}", told::counted(actions, "action"), told::counted(moves, "move"));
    let faulty = fault.map_or(Markup::NONE, |(stored, fault)| {
        let said = element("p", &[("class", "fault")], Markup::text(stored.told(fault))).line();
        said.then(not_good::evidence(stored, fault, entries.last()))
    });
    let heading = element("h1", &[], Markup::text(&title)).line();
    page(&title, heading.then(faulty).then(judged(lists, entries)).then(not_good::game(entries, "positions")), words)
}
