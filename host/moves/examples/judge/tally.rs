//! The comparison, and what was seen.

use crate::lists::Lists;
use crate::positions::fen;
use menkhodur::lent::Record;

pub struct Tally {
    lists: Lists,
    pub different: u64,
    moves: usize,
    checks: u64,
    mates: u64,
    stalemates: u64,
    passing: usize,
    castlings: usize,
    promotions: usize,
    shown: u64,
}

impl Tally {
    pub fn of(lists: Lists) -> Tally {
        Tally { lists, different: 0, moves: 0, checks: 0, mates: 0, stalemates: 0, passing: 0, castlings: 0, promotions: 0, shown: 0 }
    }

    pub fn compare(&mut self, record: &Record, moves: &[String]) {
        let (ours, check) = (self.lists.texts(record), self.lists.in_check(record));
        if ours.as_deref() != Ok(moves) {
            println!("{}\n  ours  {ours:?}\n  other {moves:?}", fen(record));
            self.different += 1;
        }
        let count = |counts: &dyn Fn(&str) -> bool| moves.iter().filter(|text| counts(text)).count();
        let home = |texts: [&str; 2], square: usize, king: u8| count(&|text| texts.contains(&text) && record.numbers[square] == king);
        self.moves += moves.len();
        self.checks += u64::from(check);
        self.mates += u64::from(check && moves.is_empty());
        self.stalemates += u64::from(!check && moves.is_empty());
        self.passing += count(&|text| in_passing(record, text));
        self.castlings += home(["e1g1", "e1c1"], 4, 6) + home(["e8g8", "e8c8"], 60, 12);
        self.promotions += count(&|text| text.len() == 5);
    }

    pub fn compare_check(&mut self, record: &Record, check: bool) {
        if self.lists.in_check(record) != check {
            println!("{}\n  other {}", fen(record), if check { "in check" } else { "not in check" });
            self.different += 1;
        }
        self.shown += 1;
    }

    pub fn shown(&self, positions: usize) -> String {
        let Tally { different, moves, checks, mates, stalemates, passing, castlings, promotions, shown, .. } = self;
        format!(
            "{positions} positions, {moves} moves, {castlings} castlings, {passing} captures in passing, {promotions} promotions; {checks} in \
             check, {mates} mates, {stalemates} stalemates; whether in check asked of {shown}; {different} different"
        )
    }
}

/// Whether a pawn changes files and comes to an empty square.
fn in_passing(record: &Record, text: &str) -> bool {
    let [from, rank, to, goal, ..] = text.as_bytes() else { return false };
    let square = |file: &u8, rank: &u8| usize::from(rank - b'1') * 8 + usize::from(file - b'a');
    from != to && record.numbers[square(from, rank)] % 6 == 1 && record.numbers[square(to, goal)] == 0
}
