//! What differs between two rolls, by us and by the same job in plain safe Rust.

use crate::plain_differences;
use crate::rolls::{rolled, Rolled};
use crate::{row, times};
use both::abi::{self, NUMBERS};
use both::random::Random;

const LENGTHS: [usize; 5] = [20, 80, 300, 600, 1_024];
const GAMES: usize = 32;
/// More than the longest text has.
const ROOM: usize = 700;

type Pair = (Vec<u8>, Vec<u8>);

/// A copy in which the action at a tenth, a half or the whole of the way is another, or nothing is changed.
fn changed(game: &Rolled, part: usize, of: usize) -> Vec<u8> {
    let mut actions = game.actions.clone();
    let at = 4 * (game.count as usize * part / of).min(game.count as usize - 1);
    actions[at..at + 4].copy_from_slice(&[1, 0, 7, 3]);
    game.again(&actions)
}

/// A copy of which every number of the start but the counters is another, as before there were counters.
fn other_start(game: &Rolled) -> Vec<u8> {
    let mut roll = game.roll.clone();
    for (place, number) in roll[..NUMBERS].iter_mut().enumerate() {
        let most = if place < 64 { 12 } else { 1 };
        *number = if *number == most { most - 1 } else { most };
    }
    roll
}

/// What is timed must be right: both tell the same, and refuse the same cuts of a roll.
fn check((first, second): &Pair) {
    let asked = |call: fn(&[u8], &[u8], &mut [u8]) -> abi::Answer, a: &[u8], b: &[u8]| {
        let mut room = [0; ROOM];
        (call(a, b, &mut room), room)
    };
    let cuts = (0..first.len()).map(|at| &first[..at]);
    for a in cuts.chain([&first[..]]) {
        assert_eq!(asked(abi::roll_differences, a, second), asked(plain_differences::differences, a, second));
        assert_eq!(asked(abi::roll_differences, second, a), asked(plain_differences::differences, second, a));
    }
}

fn time(what: &str, pairs: &[Pair]) {
    check(&pairs[0]);
    let (mut room, mut other) = ([0; ROOM], [0; ROOM]);
    let theirs = |(a, b): &Pair| plain_differences::differences(a, b, &mut other);
    let (theirs, ours) = times(pairs, theirs, |(a, b)| abi::roll_differences(a, b, &mut room));
    row(what, pairs.len(), theirs, ours, "1");
}

pub fn differences(random: &mut Random) {
    println!("(differences: the column `crate` has the same job in plain safe Rust, plain_differences.rs)");
    for length in LENGTHS {
        let games: Vec<Rolled> = (0..GAMES).map(|_| rolled(length, random)).collect();
        let pairs = |of: &dyn Fn(&Rolled) -> Vec<u8>| games.iter().map(|g| (g.roll.clone(), of(g))).collect::<Vec<Pair>>();
        time(&format!("differences, {length} moves, equal"), &pairs(&|g| g.roll.clone()));
        time(&format!("differences, {length} moves, half way"), &pairs(&|g| changed(g, 1, 2)));
        if length == 80 {
            time("differences, 80 moves, every start number", &pairs(&other_start));
        }
    }
}
