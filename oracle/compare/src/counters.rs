//! `counters`: the half-move clock and the move number along games of the crate (document 02, order 12), as `clock.rs` counts them from the crate's
//! boards: those of our board after each move, taken on from one to the next, and those that our log keeps, read out of its bytes. In a good log the
//! clock is the count of article 9.3 and, as long as that goes back to the start, the start's clock more.

use crate::clock::Counters;
use crate::full_fen::owed_full;
use crate::part::{Part, Tally};
use crate::records;
use crate::ruling::Course;
use crate::rules::en_passant_rank;
use crate::script::{self, Act, Script};
use crate::texts;
use both::abi::{self, Answer, Counts, Log, Record, Stepped, COUNTERS_LENGTH, LAST_COUNT, LONGEST_FULL_FEN, MOST_MOVES, NUMBERS, POSITION_LENGTH};
use both::games::{board_of, STARTS};
use both::numbers::{move_of, record_of};
use both::random::Random;
use chess::{Board, BoardBuilder};
use std::cell::RefCell;

/// In a long game the Laws' count is asked after every so many moves, and near the game's end.
const STRIDE: usize = 61;

/// A start with its counters, moves, of which those that are not legal are left out, and changes of one stored byte each.
#[derive(Clone)]
pub struct Input {
    start: String,
    moves: Vec<u16>,
    changes: Vec<Change>,
}

/// Which position of the game, counted round; which of the four bytes of its counters; what is put there.
#[derive(Clone, Debug)]
struct Change {
    position: usize,
    byte: usize,
    value: u8,
}

/// The boards and counters of a game so far.
struct Line {
    boards: Vec<Board>,
    counted: Vec<Counters>,
    course: Course,
}

fn record_at(board: &Board, counters: Counters) -> Record {
    counters.on(record_of(&BoardBuilder::from(board)))
}

impl Line {
    fn start(fen: &str) -> Line {
        let (board, mut course) = (board_of(fen), Course::default());
        course.start(board);
        Line { boards: vec![board], counted: vec![Counters::said_by(fen)], course }
    }

    fn last(&self) -> (&Board, Counters) {
        let last = self.boards.len() - 1;
        (&self.boards[last], self.counted[last])
    }

    fn add(&mut self, next: Board) {
        let (board, counters) = self.last();
        let after = counters.after(board, &next);
        self.boards.push(next);
        self.counted.push(after);
        self.course.add(next);
    }

    /// Whether a log with these counters in its positions is good: each in range, and after each move those that it gives.
    fn is_good(&self, stored: &[Counters]) -> bool {
        let in_range = |counters: &Counters| records::counters_in_range(&counters.on(records::EMPTY));
        let follows = |k: usize| stored[k].after(&self.boards[k], &self.boards[k + 1]) == stored[k + 1];
        stored.iter().all(in_range) && (0..stored.len() - 1).all(follows)
    }
}

/// Where the counters of a position lie.
fn place(position: usize) -> usize {
    POSITION_LENGTH * position + NUMBERS
}

/// "each as two bytes, low first, after the 68 old record bytes"
fn stored(log: &Log, position: usize) -> Counters {
    let bytes = &log.positions[place(position)..][..COUNTERS_LENGTH];
    let two = |at: usize| u16::from(bytes[at]) + 256 * u16::from(bytes[at + 1]);
    Counters { half: two(0), full: two(2) }
}

/// The record after the move by our call, from the one that it gave before.
fn after(line: &Line, record: Record, number: u16, next: &Board, tally: &mut Tally) -> Result<Record, String> {
    let (board, counters) = line.last();
    let owed = Stepped { number: 0, board: record_at(next, counters.after(board, next)) };
    let ours = abi::board_after(record, number as u64);
    if ours != owed {
        return Err(format!("after {}: owed {}, ours {}", move_of(number), records::show(&owed.board), records::show(&ours.board)));
    }
    tally.count("counters: after", true);
    Ok(ours.board)
}

/// The position's FEN with its counters, written by us and read back.
fn full_text(line: &Line, record: Record, tally: &mut Tally) -> Result<(), String> {
    let (board, counters) = line.last();
    let owed = counters.behind(&en_passant_rank(&board.to_string()).0);
    let mut room = [0; LONGEST_FULL_FEN];
    let answer = abi::fen_write_full(record, &mut room);
    let written = &room[..answer.value as usize];
    if answer.number != 0 || written != owed.as_bytes() || abi::fen_read_full(written) != owed_full(&owed)? {
        return Err(format!("owed {:?}, ours {:?} {:?}", owed, answer, String::from_utf8_lossy(written)));
    }
    tally.count("counters: full FEN", true);
    Ok(())
}

/// What the log has kept of the last position; and the promise of the clock and the Laws' count, by our ruling and by the crate's boards.
fn kept(line: &Line, log: &Log, asked: bool, tally: &mut Tally) -> Result<(), String> {
    let k = line.boards.len() - 1;
    let (owed, ours) = (line.counted[k], stored(log, k));
    if ours != owed {
        return Err(format!("position {}: owed {:?}, stored {:?}", k, owed, ours));
    }
    tally.count("counters: stored", true);
    if !asked {
        return Ok(());
    }
    let (laws, ruled) = (line.course.laws_count(), log.ruling().laws_count as usize);
    let since_start = if laws == k { usize::from(line.counted[0].half) } else { 0 };
    let clock = (laws + since_start).min(LAST_COUNT.into());
    if laws != ruled || clock != usize::from(ours.half) {
        return Err(format!("position {}: the Laws' count is {} and by our ruling {}, the clock {} and not {}", k, laws, ruled, ours.half, clock));
    }
    tally.count("counters: by the Laws", true);
    Ok(())
}

/// A start with a counter out of range is 5, and nothing is written.
fn refuses_start(line: &Line, log: &mut Log, tally: &mut Tally) -> Result<(), String> {
    let (board, Counters { half, full }) = line.last();
    let over = LAST_COUNT + 1;
    let kept = log.positions[..POSITION_LENGTH].to_vec();
    for (half, full) in [(over, full), (half, over), (half, 0), (u16::MAX, full), (half, u16::MAX)] {
        let counts = log.start(&Counters { half, full }.position(board));
        if counts != (Counts { number: 5, actions: 0, moves: 0 }) || log.positions[..POSITION_LENGTH] != kept {
            return Err(format!("a start with the counters {} and {}: ours {:?}", half, full, counts));
        }
        tally.count("counters: start", false);
    }
    Ok(())
}

/// One stored byte after the other is changed and put back: 9, unless the counters are still those of a good log.
fn changed(line: &Line, log: &mut Log, changes: &[Change], tally: &mut Tally) -> Result<(), String> {
    let result = log.result();
    for change in changes {
        let position = change.position % line.boards.len();
        let at = place(position) + change.byte;
        let before = std::mem::replace(&mut log.positions[at], change.value);
        let all: Vec<Counters> = (0..line.boards.len()).map(|k| stored(log, k)).collect();
        let good = line.is_good(&all);
        let owed = if good { result } else { Answer { number: 9, value: 0 } };
        let ours = log.result();
        log.positions[at] = before;
        if ours != owed {
            return Err(format!("byte {} of position {} put to {}: owed {:?}, ours {:?}", change.byte, position, change.value, owed, ours));
        }
        tally.count("counters: changed", good);
    }
    Ok(())
}

pub struct CountersPart(RefCell<Log>);

impl CountersPart {
    pub fn new() -> CountersPart {
        CountersPart(RefCell::new(Log::new()))
    }
}

fn moves_of(acts: &[Act]) -> Vec<u16> {
    let number = |act: &Act| match act {
        Act::Move(number) => Some(*number),
        _ => None,
    };
    acts.iter().filter_map(number).collect()
}

/// Every byte of the counters of the first, the second and the last position put to edges.
fn edges(last: usize) -> Vec<Change> {
    let values = [0, 1, 2, 15, 16, 38, 39, 40, 255];
    let places = [0, 1, last].into_iter().flat_map(|position| (0..COUNTERS_LENGTH).map(move |byte| (position, byte)));
    places.flat_map(|(position, byte)| values.map(|value| Change { position, byte, value })).collect()
}

/// Knights there and back, as many moves as a log holds, from counters that come to their last one a move before the end.
fn longest() -> Input {
    let (half, full) = (LAST_COUNT - MOST_MOVES as u16 + 1, LAST_COUNT - MOST_MOVES as u16 / 2 + 1);
    Input { start: Counters { half, full }.behind(STARTS[0]), moves: moves_of(&script::knights(MOST_MOVES)), changes: vec![] }
}

impl Part for CountersPart {
    type Input = Input;
    const NAME: &'static str = "counters";

    fn fixed(&self) -> Box<dyn Iterator<Item = Input>> {
        let near = [(0, 1), (254, 255), (LAST_COUNT - 3, LAST_COUNT - 1), (LAST_COUNT, LAST_COUNT)];
        let told = script::told().into_iter().flat_map(move |script| {
            near.map(|(half, full)| Script { start: Counters { half, full }.behind(&script.start), ..script.clone() })
        });
        let given = told.chain(script::counted()).map(|script| {
            let moves = moves_of(&script.acts);
            Input { changes: edges(moves.len()), start: script.start, moves }
        });
        Box::new(given.chain([longest()]))
    }

    fn random(&mut self, random: &mut Random) -> Option<Input> {
        let script = script::random(random);
        let counters = Counters { half: records::random_counter(0, random), full: records::random_counter(1, random) };
        let any = |random: &mut Random| {
            let value = if random.once_in(2) { random.below(40) as u8 } else { random.next() as u8 };
            Change { position: random.below(400), byte: random.below(COUNTERS_LENGTH), value }
        };
        let changes = (0..24).map(|_| any(random)).collect();
        Some(Input { start: counters.behind(&script.start), moves: moves_of(&script.acts), changes })
    }

    fn compare(&self, input: &Input, tally: &mut Tally) -> Result<(), String> {
        let (mut log, mut line) = (self.0.borrow_mut(), Line::start(&input.start));
        refuses_start(&line, &mut log, tally)?;
        let (board, counters) = line.last();
        let mut record = record_at(board, counters);
        let begun = log.start(&counters.position(board));
        if begun.number != 0 {
            return Err(format!("the start: ours {:?}", begun));
        }
        kept(&line, &log, true, tally)?;
        for number in &input.moves {
            if !line.last().0.legal(move_of(*number)) {
                continue;
            }
            let next = line.last().0.make_move_new(move_of(*number));
            record = after(&line, record, *number, &next, tally)?;
            line.add(next);
            let (board, counters) = line.last();
            let counts = log.make_move(*number as u64, &counters.position(board));
            let k = line.boards.len() - 1;
            if counts != (Counts { number: 0, actions: k as u64, moves: k as u64 }) {
                return Err(format!("move {}: ours {:?}", k, counts));
            }
            full_text(&line, record, tally)?;
            kept(&line, &log, input.moves.len() < 400 || k % STRIDE == 0 || k + STRIDE > input.moves.len(), tally)?;
        }
        changed(&line, &mut log, &input.changes, tally)
    }

    /// Without some of the moves or changes, or with the counters of a game's beginning.
    fn smaller(&self, input: &Input) -> Vec<Input> {
        let first = Counters::FIRST.behind(&input.start);
        let first = (first != input.start).then(|| Input { start: first, ..input.clone() });
        let moves = texts::cut_lists(&input.moves).into_iter().map(|moves| Input { moves, ..input.clone() });
        let changes = texts::cut_lists(&input.changes).into_iter().map(|changes| Input { changes, ..input.clone() });
        changes.chain(first).chain(moves).collect()
    }

    fn show(&self, input: &Input) -> String {
        let moves: Vec<String> = input.moves.iter().map(|number| move_of(*number).to_string()).collect();
        format!("{:?} then {} moves: {}; changes {:?}", input.start, moves.len(), moves.join(" "), input.changes)
    }
}
