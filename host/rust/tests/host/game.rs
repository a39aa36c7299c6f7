//! The positions of a game's move text: by hand, and beside games of knights that are played as their text is written.

use crate::common::{Numbers, after, moves, out_of_range};
use menkhodur::lent::{self, MAX_FEN, Record, Step};
use menkhodur::{Board, Error, GamePositions, Lends, Lent, Move, MoveText, Played, Unplayed};
use std::error::Error as _;

const INITIAL: &str = "rnbqkbnr/pppppppp/8/8/8/8/PPPPPPPP/RNBQKBNR w KQkq - 0 1";
const KNIGHTS: &str = "1n4n1/8/8/8/8/8/8/1N4N1 w - -";

/// Lends one list after the other, and keeps the texts that it was asked with.
struct Script<'a> {
    lists: Vec<Vec<Move>>,
    asked: &'a mut Vec<String>,
}

impl Lends for Script<'_> {
    type Error = String;

    fn lend(&mut self, _: &Record, text: &[u8], into: &mut Lent) -> Result<(), String> {
        self.asked.push(String::from_utf8_lossy(text).into_owned());
        let list = self.lists.get(self.asked.len() - 1).ok_or("the script is over")?;
        into.clear();
        list.iter().try_for_each(|made| into.push(made.number())).map_err(|refused| refused.to_string())
    }
}

/// A move of the list per move of the game, with others beside it.
fn lists(made: &str) -> Vec<Vec<Move>> {
    moves(made).into_iter().map(|made| [moves("a2a3 h7h6"), vec![made]].concat()).collect()
}

// ---- By hand

const OPENING: &str = "e2e4 e7e5 g1f3 b8c6 f1b5 a7a6 e1g1";
const KEYS: [&str; 7] = [
    "rnbqkbnr/pppppppp/8/8/4P3/8/PPPP1PPP/RNBQKBNR b KQkq - 0 1",
    "rnbqkbnr/pppp1ppp/8/4p3/4P3/8/PPPP1PPP/RNBQKBNR w KQkq - 0 1",
    "rnbqkbnr/pppp1ppp/8/4p3/4P3/5N2/PPPP1PPP/RNBQKB1R b KQkq - 0 1",
    "r1bqkbnr/pppp1ppp/2n5/4p3/4P3/5N2/PPPP1PPP/RNBQKB1R w KQkq - 0 1",
    "r1bqkbnr/pppp1ppp/2n5/1B2p3/4P3/5N2/PPPP1PPP/RNBQK2R b KQkq - 0 1",
    "r1bqkbnr/1ppp1ppp/p1n5/1B2p3/4P3/5N2/PPPP1PPP/RNBQK2R w KQkq - 0 1",
    "r1bqkbnr/1ppp1ppp/p1n5/1B2p3/4P3/5N2/PPPP1PPP/RNBQ1RK1 b kq - 0 1",
];

#[test]
fn every_position_once_in_order() {
    let texts = [
        "1. e4 e5 2. Nf3 Nc6 3. Bb5 a6 4. O-O",
        "1.e4 (1.d4 d5 (1...Nf6)) (1.c4) 1...e5 {(} 2.Nf3 $1 ; )\n Nc6 (2...d6 (2...f6 3.Nxe5)) 3.Bb5+ () a6# 4.O-O 1/2-1/2 Nf6",
    ];
    for text in texts {
        let mut asked = vec![];
        let played = MoveText::new(text).positions(Board::default(), Script { lists: lists(OPENING), asked: &mut asked });
        let played: Vec<Played> = played.map(Result::unwrap).collect();
        assert_eq!(played.iter().map(Played::key).collect::<Vec<_>>(), KEYS);
        assert_eq!(played.iter().map(|step| step.played).collect::<Vec<_>>(), moves(OPENING));
        for step in &played {
            assert_eq!(step.text, &text.as_bytes()[step.start..step.start + step.text.len()]);
            assert_eq!(step.board.to_fen(), step.key());
        }
        // Each list is asked for with the move's own text, once.
        assert_eq!(asked, played.iter().map(|step| String::from_utf8_lossy(step.text)).collect::<Vec<_>>());
        let last = played.last().unwrap().board;
        assert_eq!((last.get_half_moves(), last.get_full_moves()), (1, 4));
    }
}

#[test]
fn a_start_keeps_its_counters() {
    let start = Board::from_fen_full("8/8/8/8/8/8/8/1N6 b - - 7 20").unwrap();
    let mut asked = vec![];
    let host = Script { lists: lists("b1c3"), asked: &mut asked };
    let step = MoveText::new("20... Nc3").positions(start, host).next().unwrap().unwrap();
    assert_eq!(step.board.to_fen_full(), "8/8/8/8/8/2N5/8/8 w - - 8 21");
    assert_eq!((step.key(), step.board), ("8/8/8/8/8/2N5/8/8 w - - 0 1", start.after(step.played)));
}

/// How many positions come, and why no more; then nothing.
fn ending(text: &str, lists: Vec<Vec<Move>>) -> (usize, Option<Unplayed<String>>) {
    let mut asked = vec![];
    let mut positions = MoveText::new(text).positions(Board::default(), Script { lists, asked: &mut asked });
    let mut count = 0;
    loop {
        match positions.next() {
            Some(Ok(_)) => count += 1,
            Some(Err(why)) => {
                assert_eq!(positions.next().map(|next| next.is_ok()), None);
                assert_eq!(positions.next().map(|next| next.is_ok()), None);
                return (count, Some(why));
            }
            None => return (count, None),
        }
    }
}

#[test]
fn it_ends_with_what_is_refused_first() {
    let ends = |text: &str| ending(text, lists(OPENING));
    assert_eq!(ends(""), (0, None));
    assert_eq!(ends("1. e4 e5 1-0 %"), (2, None));
    let rows = [
        ("1. e4 % e5", 1, Error::UnknownToken { offset: 6 }),
        ("1. e4 (1. d4 1-0) e5", 1, Error::UnknownToken { offset: 13 }),
        ("1. e4 e5 )", 2, Error::UnknownToken { offset: 9 }),
        ("1. e4 (1. d4 (1. c4", 1, Error::LeftOpen { offset: 13 }),
        ("1. e4 {never closed", 1, Error::LeftOpen { offset: 6 }),
        ("1. e4 ((((((((( e5", 1, Error::TooDeep { offset: 14 }),
        ("1. e4 e5 2. Nf6 Nc6", 2, Error::InvalidSanMoveAt { start: 12, length: 3 }),
        ("1. e4 e5 2. Nxf3", 2, Error::InvalidSanMoveAt { start: 12, length: 4 }),
        ("1. e4! e5", 0, Error::InvalidSanMoveAt { start: 3, length: 3 }),
    ];
    for (text, count, refused) in rows {
        assert_eq!(ends(text), (count, Some(Unplayed::Refused(refused))), "{text}");
        assert_eq!(Some(ends(text).1.unwrap().offset()), refused.offset());
    }
}

#[test]
fn a_host_that_lends_nothing_ends_it() {
    let (count, why) = ending("1. e4 e5 2. Nf3", lists("e2e4 e7e5"));
    let why = why.unwrap();
    assert_eq!((count, &why), (2, &Unplayed::NotLent { start: 12, length: 3, why: "the script is over".to_string() }));
    assert_eq!((why.offset(), why.to_string()), (12, "there is no list of moves, at byte 12: the script is over".to_string()));
    // What stands before a move is judged before its list is asked for.
    assert_eq!(ending("1. e4 e5 2. % Nf3", lists("e2e4 e7e5")), (2, Some(Unplayed::Refused(Error::UnknownToken { offset: 12 }))));
    let refused = Unplayed::<Error>::Refused(Error::TooDeep { offset: 8 });
    assert_eq!(refused.to_string(), Error::TooDeep { offset: 8 }.to_string());
    assert_eq!(refused.source().unwrap().to_string(), refused.to_string());
    let lent = Unplayed::NotLent { start: 0, length: 2, why: Error::ListOutOfRange };
    assert_eq!(lent.source().unwrap().to_string(), Error::ListOutOfRange.to_string());
}

// ---- Games of knights

/// The leaps of the side to move; with a square, those to it alone.
struct Leaps {
    narrowed: bool,
}

fn leaps(record: &Record) -> Vec<u16> {
    let own = if record.numbers[64] == 0 { 2 } else { 8 };
    let steps = [(1, 2), (2, 1), (2, -1), (1, -2), (-1, -2), (-2, -1), (-2, 1), (-1, 2)];
    let from = (0..64_i32).filter(|square| record.numbers[*square as usize] == own);
    let to = from.flat_map(|from| steps.map(|(files, ranks)| (from, from % 8 + files, from / 8 + ranks)));
    let on = to.filter(|(_, file, rank)| (0..8).contains(file) && (0..8).contains(rank));
    on.map(|(from, file, rank)| (from, 8 * rank + file)).filter(|(_, to)| record.numbers[*to as usize] != own).map(number).collect()
}

fn number((from, to): (i32, i32)) -> u16 {
    (from + 64 * to) as u16
}

impl Lends for Leaps {
    type Error = Error;

    fn lend(&mut self, record: &Record, text: &[u8], into: &mut Lent) -> Result<(), Error> {
        into.clear();
        let named = |number: &u16| {
            let to = Move::from_number(u64::from(*number)).unwrap().get_dest().to_string();
            !self.narrowed || text.windows(2).any(|two| two == to.as_bytes())
        };
        leaps(record).into_iter().filter(named).try_for_each(|number| into.push(number))
    }
}

/// What was written: the text, and for each move, in text order, its level, its place and the board after it.
#[derive(Default)]
struct Tale {
    text: String,
    told: Vec<(u64, usize, Board)>,
}

impl Tale {
    /// A sequence of moves. Variations behind a move are played from the board before it; those without a move leave no trace.
    fn tell(&mut self, mut board: Board, level: u64, count: u64, numbers: &mut Numbers) {
        let between = ["", "1. ", "{(} ", "; (\n", "$3 ", "() ", "(() {)}) "];
        for _ in 0..count {
            let list = leaps(board.record());
            let Some(bound) = (list.len() as u64).checked_sub(1) else { return };
            self.text += between[numbers.below(if level < 7 { 7 } else { 4 }) as usize];
            let made = Move::from_number(u64::from(list[numbers.below(bound + 1) as usize])).unwrap();
            let next = after(board, made);
            let takes = if board.piece_on(made.get_dest()).is_some() { "x" } else { "" };
            self.told.push((level, self.text.len(), next));
            self.text += &format!("N{}{takes}{} ", made.get_source(), made.get_dest());
            while level < 8 && numbers.below(5) == 0 && self.told.len() < 200 {
                self.text += "(";
                let count = 1 + numbers.below(4);
                self.tell(board, level + 1, count, numbers);
                self.text += ") ";
            }
            board = next;
        }
    }
}

/// A host that plays what is in brackets too: of each sequence that is open it keeps the records before and after its last move.
fn whole(text: &str, start: Record) -> Result<Vec<(u64, usize, Record, String)>, Error> {
    let (mut lines, mut all, mut room) = (vec![(start, start)], vec![], [0; MAX_FEN]);
    for met in MoveText::new(text).moves() {
        let met = met?;
        lines.truncate(lines.len() - met.closed);
        for _ in 0..met.opened {
            let before = lines.last().unwrap().0;
            lines.push((before, before));
        }
        let line = lines.last_mut().unwrap();
        let step = lent::play(met.text, &line.1, &leaps(&line.1), &mut room)?;
        assert_eq!((step.start, step.length), (0, met.text.len()));
        *line = (line.1, step.record);
        all.push((met.level, met.start, step.record, String::from_utf8_lossy(&room[..step.key]).into_owned()));
        assert_eq!(lines.len() as u64, met.level + 1);
    }
    Ok(all)
}

#[test]
fn games_with_variations() {
    let (mut numbers, start) = (Numbers(39), Board::from_fen(KNIGHTS).unwrap());
    for _ in 0..200 {
        let mut tale = Tale::default();
        let count = 1 + numbers.below(25);
        tale.tell(start, 0, count, &mut numbers);
        let owed: Vec<_> = tale.told.iter().map(|(level, at, board)| (*level, *at, *board.record(), board.to_fen())).collect();
        assert_eq!(whole(&tale.text, *start.record()), Ok(owed), "{}", tale.text);
        let main: Vec<_> = tale.told.iter().filter(|told| told.0 == 0).map(|(_, at, board)| (*at, *board, board.to_fen())).collect();
        for narrowed in [false, true] {
            let positions: GamePositions<Leaps> = MoveText::new(&tale.text).positions(start, Leaps { narrowed });
            let played: Vec<_> = positions.map(|step| step.map(|step| (step.start, step.board, step.key().to_string())).unwrap()).collect();
            assert_eq!(played, main, "{}", tale.text);
        }
    }
}

/// A list with the moves to one square alone gives what the whole list gives, refusals too.
#[test]
fn narrowed_lists_do() {
    let (mut numbers, start) = (Numbers(7), Board::from_fen(KNIGHTS).unwrap());
    let texts = ["Nc3", "Na3", "Nbc3", "Nd2", "Nf3", "Ne2", "Nxc6", "Nc6", "Nf6", "Nd7", "Nb1", "O-O", "e4", "N", "Nc3+", "Nb1d2"];
    for _ in 0..2_000 {
        let text: Vec<&str> = (0..numbers.below(12)).map(|_| texts[numbers.below(16) as usize]).collect();
        let text = text.join(" ");
        let with = |narrowed: bool| MoveText::new(&text).positions(start, Leaps { narrowed }).collect::<Vec<_>>();
        assert_eq!(with(false), with(true), "{text}");
    }
}

// ---- The calls over lent slices

#[test]
fn rooms_and_what_is_handed_out() {
    let record = lent::fen_read(INITIAL.as_bytes()).unwrap();
    let (text, list) = (&b"1. d4 (1. e4) e4"[..], moves("e2e4 d2d4").iter().map(|m| m.number()).collect::<Vec<_>>());
    for length in 0..=MAX_FEN {
        let mut room = vec![0xA5; length];
        let step = lent::game_step(text, 5, &record, &list, &mut room);
        if length < KEYS[0].len() {
            assert_eq!((step, room.iter().all(|b| *b == 0xA5)), (Err(Error::OutputTooShort { needed: KEYS[0].len() }), true));
            continue;
        }
        let owed = Step { start: 14, length: 2, played: list[0], record: lent::board_after(&record, 1_804).unwrap(), key: KEYS[0].len() };
        assert_eq!(step, Ok(Some(owed)));
        assert_eq!(lent::play(b"e4", &record, &list, &mut room), Ok(Step { start: 0, ..owed }));
        assert_eq!((&room[..owed.key], room[owed.key..].iter().all(|b| *b == 0xA5)), (KEYS[0].as_bytes(), true));
    }
}

#[test]
fn refusals_in_their_order() {
    let knight = lent::fen_read(b"8/8/8/8/8/8/8/1N6 w - -").unwrap();
    let bad = Record { full_moves: 0, ..knight };
    let step = |text: &[u8], record: &Record, list: &[u16]| {
        let mut room = [0xA5; 26];
        let step = lent::game_step(text, 0, record, list, &mut room);
        assert!(step.is_err() && room == [0xA5; 26]);
        let alone = text.strip_prefix(b"(%) ").unwrap_or(text).strip_prefix(b"() ").unwrap_or(b"Nc3");
        let played = lent::play(alone, record, list, &mut room);
        assert!(played.is_err() && room == [0xA5; 26]);
        (step.unwrap_err(), played.unwrap_err())
    };
    let at = (3, 3);
    assert_eq!(step(b"(%) () Nc3", &bad, &[28_672]), (Error::UnknownToken { offset: 1 }, Error::OutOfRange));
    assert_eq!(step(b"() Nc3", &bad, &[28_672]), (Error::OutOfRangeAt { start: at.0, length: at.1 }, Error::OutOfRange));
    assert_eq!(step(b"() Nc4", &knight, &[28_672]), (Error::ListOutOfRangeAt { start: at.0, length: at.1 }, Error::ListOutOfRange));
    assert_eq!(step(b"() Nc4", &knight, &[0; 256]), (Error::ListOutOfRangeAt { start: at.0, length: at.1 }, Error::ListOutOfRange));
    assert_eq!(step(b"() Nc4", &knight, &[1_153]), (Error::InvalidSanMoveAt { start: at.0, length: at.1 }, Error::InvalidSanMove));
    assert_eq!(step(b"() Nc3", &knight, &[1_153]), (Error::OutputTooShort { needed: 27 }, Error::OutputTooShort { needed: 27 }));
    for record in out_of_range(knight) {
        assert_eq!(step(b"() Nc3", &record, &[1_153]), (Error::OutOfRangeAt { start: at.0, length: at.1 }, Error::OutOfRange));
    }
}

#[test]
fn wide_offsets_are_judged_as_they_are() {
    let knight = lent::fen_read(b"8/8/8/8/8/8/8/1N6 w - -").unwrap();
    for wide in [4, 1 << 16, 1 << 32, 1 << 63, u64::MAX] {
        let step = lent::game_step(b"Nc3", wide, &knight, &[1_153], &mut [0; MAX_FEN]);
        assert_eq!(step, Err(Error::UnknownToken { offset: wide as usize }));
    }
    assert_eq!(lent::game_step(b"Nc3", 3, &knight, &[1_153], &mut []), Ok(None));
}
