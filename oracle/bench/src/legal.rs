//! The legal moves of each position, beside the stand-in for the crate's generator; and a list that is judged, beside one that is made: both are ours.

use crate::{row, times, Place};
use both::abi;
use both::games::moves_of;
use both::numbers::number_of;
use chess::{Board, EMPTY};
use std::convert::TryFrom;

/// The stand-in's moves in rising order of their numbers.
fn sorted(board: &Board) -> Vec<u16> {
    let mut list: Vec<u16> = moves_of(board).into_iter().map(number_of).collect();
    list.sort_unstable();
    list
}

fn in_check(board: &Board) -> u8 {
    (*board.checkers() != EMPTY) as u8
}

pub fn legal(places: &[Place]) {
    let mut room = [0; 255];
    let lists: Vec<(&Place, Vec<u16>, u8)> = places.iter().map(|p| (p, sorted(&p.board), in_check(&p.board))).collect();
    for (p, list, byte) in &lists {
        let written = abi::legal_list(p.record, &mut room);
        assert_eq!((written.number, &room[..written.value as usize]), (0, &list[..]));
        assert_eq!(abi::in_check(p.record).value, *byte as u64);
        assert_eq!(abi::list_judged(p.record, *byte, list).wrong, 0);
    }
    let (theirs, ours) = times(&lists, |(p, ..)| sorted(&p.board), |(p, ..)| abi::legal_list(p.record, &mut room));
    row("the legal moves, the stand-in's sorted", lists.len(), theirs, ours, "");
    println!("    {:.0} positions a second, the stand-in {:.0}", 1e9 / ours, 1e9 / theirs);
    let from_builder = |(p, ..): &(&Place, Vec<u16>, u8)| sorted(&Board::try_from(&p.builder).expect("a position of a game"));
    let (theirs, ours) = times(&lists, from_builder, |(p, ..)| abi::legal_list(p.record, &mut room));
    row("the same, the stand-in from a builder", lists.len(), theirs, ours, "");
    let (making, judging) =
        times(&lists, |(p, ..)| abi::legal_list(p.record, &mut room), |(p, list, byte)| abi::list_judged(p.record, *byte, list));
    row("a list judged (ours), against making it (ours)", lists.len(), making, judging, "0.77");
    let (theirs, ours) =
        times(&lists, |(p, ..)| Board::try_from(&p.builder).map(|b| in_check(&b)), |(p, ..)| abi::in_check(p.record));
    row("in check, the crate from a builder", lists.len(), theirs, ours, "");
}
