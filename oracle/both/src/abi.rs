//! The functions of libmenkhodur.a, each behind a safe one that lends slices.

/// Document 01's 68 numbers of a record, in its order. (By the constant NUMBERS, stable rustc fails on closures that hold a part of a record.)
pub type Numbers = [u8; 68];

/// The board record: the 68 numbers, then the two counters (document 02, order 12).
#[repr(C)]
#[derive(Clone, Copy, PartialEq, Eq, Debug)]
pub struct Record {
    pub numbers: Numbers,
    /// The half-move clock, 0 to 9,999, and the move number, 1 to 9,999.
    pub half_moves: u16,
    pub full_moves: u16,
}

impl Record {
    /// With the counters of a game's beginning, which are also those that the crate's reader gives.
    pub const fn of(numbers: Numbers) -> Record {
        Record { numbers, half_moves: 0, full_moves: 1 }
    }
}

#[repr(C)]
#[derive(Clone, Copy, PartialEq, Eq, Debug)]
pub struct Answer {
    pub number: u64,
    pub value: u64,
}

/// The same of a text, with the place in it of what is wrong.
#[repr(C)]
#[derive(Clone, Copy, PartialEq, Eq, Debug)]
pub struct Placed {
    pub number: u64,
    pub value: u64,
    pub offset: u64,
}

#[repr(C)]
#[derive(Clone, Copy, PartialEq, Eq, Debug)]
pub struct Stepped {
    pub number: u64,
    pub board: Record,
}

#[repr(C)]
#[derive(Clone, Copy, PartialEq, Eq, Debug)]
pub struct Fen {
    pub number: u64,
    pub offset: u64,
    pub board: Record,
}

#[repr(C)]
#[derive(Clone, Copy, PartialEq, Eq, Debug)]
pub struct Counts {
    pub number: u64,
    pub actions: u64,
    pub moves: u64,
}

/// What both rulings on a draw rest on (document 02, order 5); all 0 behind the number of a refusal.
#[repr(C)]
#[derive(Clone, Copy, PartialEq, Eq, Debug)]
pub struct Ruling {
    pub number: u64,
    /// The reversible count of document 01, and the count of article 9.3.
    pub count: u64,
    pub laws_count: u64,
    /// How many earlier positions of the run equal the last, and which are the two earliest.
    pub equals: u64,
    pub first: u64,
    pub second: u64,
    /// 0 none, 1 by the count, 2 by equal positions, 3 by both.
    pub claim: u64,
    pub laws_claim: u64,
}

/// What the check of PGN move text answers.
#[repr(C)]
#[derive(Clone, Copy, Debug, PartialEq, Eq)]
pub struct PgnCount {
    pub number: u64,
    pub offset: u64,
    pub moves: u64,
}

/// What the call for the next move answers.
#[repr(C)]
#[derive(Clone, Copy, Debug, PartialEq, Eq)]
pub struct PgnMove {
    pub number: u64,
    pub offset: u64,
    pub found: u64,
    pub start: u64,
    pub length: u64,
    pub level: u64,
    /// How many brackets are closed between the place and the move, and then opened.
    pub closed: u64,
    pub opened: u64,
}

/// What a step through a game's move text answers, and a move text that is played alone.
#[repr(C)]
#[derive(Clone, Copy, Debug, PartialEq, Eq)]
pub struct GameStep {
    pub number: u64,
    pub offset: u64,
    pub found: u64,
    pub start: u64,
    pub length: u64,
    pub played: u64,
    /// The length of the key, or with 7 the length needed.
    pub key: u64,
    pub board: Record,
}

/// What is owed to a record, and the first thing that is wrong with a list and an in-check byte; all 0 behind the number of a refusal.
#[repr(C)]
#[derive(Clone, Copy, PartialEq, Eq, Debug)]
pub struct Judged {
    pub number: u64,
    pub in_check: u64,
    pub entries: u64,
    /// 0 nothing, 1 an entry that is not legal, 2 an entry twice, 3 a legal move that is missing, 4 the byte.
    pub wrong: u64,
    pub named: u64,
}

/// What is reported on a page of FENs (document 02, order 14); all 0 behind the number of a refusal, but for the lines with 7.
#[repr(C)]
#[derive(Clone, Copy, PartialEq, Eq, Debug)]
pub struct Report {
    pub number: u64,
    pub lines: u64,
    pub accepted: u64,
    pub refused: u64,
    /// White pawn to king, then black's.
    pub men: [u64; 12],
    pub repeated: u64,
}

/// What the reader of rolls answers: how many actions it wrote, and the start.
#[repr(C)]
#[derive(Clone, Copy, PartialEq, Eq, Debug)]
pub struct Roll {
    pub number: u64,
    pub actions: u64,
    pub board: Record,
}

/// The numbers of a record before its counters, a byte each in a log, in a roll and on a page; the bytes of both counters in a log; the largest count.
pub const NUMBERS: usize = 68;
pub const COUNTERS_LENGTH: usize = 4;
const _: () = assert!(std::mem::size_of::<Numbers>() == NUMBERS && std::mem::size_of::<Record>() == NUMBERS + COUNTERS_LENGTH);
pub const LAST_COUNT: u16 = 9_999;
/// Bytes of the longest FEN with its own counters.
pub const LONGEST_FULL_FEN: usize = 91;
/// The most lines that a page has which is reported on.
pub const REPORT_LINES: usize = 4_096;

/// The most actions and the most moves of a log or a roll. `tools/abi` compares them, and what is computed from them, with the crates.
pub const MOST_ACTIONS: usize = 8_192;
pub const MOST_MOVES: usize = 4_096;
/// Bytes of one action and of one position.
pub const ACTION_LENGTH: usize = 4;
pub const POSITION_LENGTH: usize = NUMBERS + COUNTERS_LENGTH + 2 + 2 * 255;
/// Bytes of the actions part and of the positions part: a start and one position after each move.
pub const ACTIONS_LENGTH: usize = ACTION_LENGTH * MOST_ACTIONS;
pub const POSITIONS_LENGTH: usize = POSITION_LENGTH * (MOST_MOVES + 1);
/// Bytes of the longest roll: a record, two counters and a count of two each, one of each action and three more of each move.
pub const LONGEST_ROLL: usize = NUMBERS + COUNTERS_LENGTH + 2 + MOST_ACTIONS + 3 * MOST_MOVES;

#[link(name = "menkhodur", kind = "static")]
extern "C" {
    fn menkhodur_make_square(rank: u8, file: u8) -> Answer;
    fn menkhodur_rights_add(rights: u8, added: u8) -> Answer;
    fn menkhodur_rights_remove(rights: u8, removed: u8) -> Answer;
    fn menkhodur_square_rights(colour: u8, square: u8) -> Answer;

    fn menkhodur_piece(b: Record, square: u8, code: u8) -> Stepped;
    fn menkhodur_clear_square(b: Record, square: u8) -> Stepped;
    fn menkhodur_side_to_move(b: Record, colour: u8) -> Stepped;
    fn menkhodur_castle_rights(b: Record, colour: u8, rights: u8) -> Stepped;
    fn menkhodur_en_passant(b: Record, file: u8) -> Stepped;
    fn menkhodur_half_moves(b: Record, half_moves: u64) -> Stepped;
    fn menkhodur_full_moves(b: Record, full_moves: u64) -> Stepped;
    fn menkhodur_board_after(b: Record, number: u64) -> Stepped;
    fn menkhodur_board_settled(b: Record) -> Stepped;

    fn menkhodur_fen_read(text: *const u8, length: usize) -> Fen;
    fn menkhodur_fen_write(b: Record, out: *mut u8, room: usize) -> Answer;
    fn menkhodur_fen_read_full(text: *const u8, length: usize) -> Fen;
    fn menkhodur_fen_write_full(b: Record, out: *mut u8, room: usize) -> Answer;
    fn menkhodur_fen_settled(text: *const u8, length: usize, out: *mut u8, room: usize) -> Placed;
    fn menkhodur_fen_page(
        text: *const u8, length: usize, records: *mut u8, rl: usize, numbers: *mut u64, nl: usize,
    ) -> Answer;
    fn menkhodur_fen_report(
        text: *const u8, length: usize, records: *mut u8, rl: usize, numbers: *mut u64, nl: usize,
    ) -> Report;

    fn menkhodur_move_read(text: *const u8, length: usize) -> Placed;
    fn menkhodur_move_write(number: u64, out: *mut u8, room: usize) -> Answer;
    fn menkhodur_san_read(b: Record, list: *const u16, entries: usize, text: *const u8, length: usize) -> Answer;
    fn menkhodur_san_name(b: Record, list: *const u16, entries: usize, number: u64, out: *mut u8, room: usize) -> Answer;
    fn menkhodur_san_read_standard(b: Record, list: *const u16, entries: usize, text: *const u8, length: usize) -> Answer;
    fn menkhodur_san_name_standard(
        b: Record, list: *const u16, entries: usize, number: u64, out: *mut u8, room: usize,
    ) -> Answer;

    fn menkhodur_in_check(b: Record) -> Answer;
    fn menkhodur_legal_list(b: Record, out: *mut u16, room: usize) -> Answer;
    fn menkhodur_list_judged(b: Record, in_check: u8, list: *const u16, entries: usize) -> Judged;

    fn menkhodur_game_start(
        a: *const u8, al: usize, p: *mut u8, pl: usize, b: Record, in_check: u8, list: *const u16, entries: usize,
    ) -> Counts;
    fn menkhodur_game_make_move(
        a: *mut u8, al: usize, p: *mut u8, pl: usize, n: u64, m: u64, number: u64, next: Record, in_check: u8,
        list: *const u16, entries: usize,
    ) -> Counts;
    fn menkhodur_game_offer_draw(a: *mut u8, al: usize, p: *const u8, pl: usize, n: u64, m: u64, colour: u8) -> Counts;
    fn menkhodur_game_resign(a: *mut u8, al: usize, p: *const u8, pl: usize, n: u64, m: u64, colour: u8) -> Counts;
    fn menkhodur_game_accept_draw(a: *mut u8, al: usize, p: *const u8, pl: usize, n: u64, m: u64) -> Counts;
    fn menkhodur_game_declare_draw(a: *mut u8, al: usize, p: *const u8, pl: usize, n: u64, m: u64) -> Counts;
    fn menkhodur_game_result(a: *const u8, al: usize, p: *const u8, pl: usize, n: u64, m: u64) -> Answer;
    fn menkhodur_game_can_declare_draw(a: *const u8, al: usize, p: *const u8, pl: usize, n: u64, m: u64) -> Answer;
    fn menkhodur_game_can_claim_by_laws(a: *const u8, al: usize, p: *const u8, pl: usize, n: u64, m: u64) -> Answer;
    fn menkhodur_game_ruling(a: *const u8, al: usize, p: *const u8, pl: usize, n: u64, m: u64) -> Ruling;

    fn menkhodur_roll_write(b: Record, a: *const u8, al: usize, n: u64, out: *mut u8, room: usize) -> Answer;
    fn menkhodur_roll_read(roll: *const u8, length: usize, a: *mut u8, al: usize) -> Roll;
    fn menkhodur_roll_read_old(roll: *const u8, length: usize, a: *mut u8, al: usize) -> Roll;
    fn menkhodur_roll_differences(first: *const u8, fl: usize, second: *const u8, sl: usize, out: *mut u8, room: usize) -> Answer;
    fn menkhodur_pgn_check(text: *const u8, length: usize) -> PgnCount;
    fn menkhodur_pgn_next(text: *const u8, length: usize, offset: u64, level: u64) -> PgnMove;
    fn menkhodur_game_step(
        text: *const u8, length: usize, offset: u64, b: Record, list: *const u16, entries: usize, out: *mut u8, room: usize,
    ) -> GameStep;
    fn menkhodur_play(text: *const u8, length: usize, b: Record, list: *const u16, entries: usize, out: *mut u8, room: usize) -> GameStep;
}

pub fn make_square(rank: u8, file: u8) -> Answer {
    unsafe { menkhodur_make_square(rank, file) }
}

pub fn rights_add(rights: u8, added: u8) -> Answer {
    unsafe { menkhodur_rights_add(rights, added) }
}

pub fn rights_remove(rights: u8, removed: u8) -> Answer {
    unsafe { menkhodur_rights_remove(rights, removed) }
}

pub fn square_rights(colour: u8, square: u8) -> Answer {
    unsafe { menkhodur_square_rights(colour, square) }
}

pub fn piece(b: Record, square: u8, code: u8) -> Stepped {
    unsafe { menkhodur_piece(b, square, code) }
}

pub fn clear_square(b: Record, square: u8) -> Stepped {
    unsafe { menkhodur_clear_square(b, square) }
}

pub fn side_to_move(b: Record, colour: u8) -> Stepped {
    unsafe { menkhodur_side_to_move(b, colour) }
}

pub fn castle_rights(b: Record, colour: u8, rights: u8) -> Stepped {
    unsafe { menkhodur_castle_rights(b, colour, rights) }
}

pub fn en_passant(b: Record, file: u8) -> Stepped {
    unsafe { menkhodur_en_passant(b, file) }
}

pub fn half_moves(b: Record, half_moves: u64) -> Stepped {
    unsafe { menkhodur_half_moves(b, half_moves) }
}

pub fn full_moves(b: Record, full_moves: u64) -> Stepped {
    unsafe { menkhodur_full_moves(b, full_moves) }
}

pub fn board_after(b: Record, number: u64) -> Stepped {
    unsafe { menkhodur_board_after(b, number) }
}

pub fn board_settled(b: Record) -> Stepped {
    unsafe { menkhodur_board_settled(b) }
}

pub fn fen_read(text: &[u8]) -> Fen {
    unsafe { menkhodur_fen_read(text.as_ptr(), text.len()) }
}

pub fn fen_write(b: Record, out: &mut [u8]) -> Answer {
    unsafe { menkhodur_fen_write(b, out.as_mut_ptr(), out.len()) }
}

pub fn fen_read_full(text: &[u8]) -> Fen {
    unsafe { menkhodur_fen_read_full(text.as_ptr(), text.len()) }
}

pub fn fen_write_full(b: Record, out: &mut [u8]) -> Answer {
    unsafe { menkhodur_fen_write_full(b, out.as_mut_ptr(), out.len()) }
}

pub fn fen_settled(text: &[u8], out: &mut [u8]) -> Placed {
    unsafe { menkhodur_fen_settled(text.as_ptr(), text.len(), out.as_mut_ptr(), out.len()) }
}

pub fn fen_page(text: &[u8], records: &mut [u8], numbers: &mut [u64]) -> Answer {
    let (r, n) = (records, numbers);
    unsafe { menkhodur_fen_page(text.as_ptr(), text.len(), r.as_mut_ptr(), r.len(), n.as_mut_ptr(), n.len()) }
}

pub fn fen_report(text: &[u8], records: &mut [u8], numbers: &mut [u64]) -> Report {
    let (r, n) = (records, numbers);
    unsafe { menkhodur_fen_report(text.as_ptr(), text.len(), r.as_mut_ptr(), r.len(), n.as_mut_ptr(), n.len()) }
}

pub fn move_read(text: &[u8]) -> Placed {
    unsafe { menkhodur_move_read(text.as_ptr(), text.len()) }
}

pub fn move_write(number: u64, out: &mut [u8]) -> Answer {
    unsafe { menkhodur_move_write(number, out.as_mut_ptr(), out.len()) }
}

pub fn san_read(b: Record, list: &[u16], text: &[u8]) -> Answer {
    unsafe { menkhodur_san_read(b, list.as_ptr(), list.len(), text.as_ptr(), text.len()) }
}

pub fn san_name(b: Record, list: &[u16], number: u64, out: &mut [u8]) -> Answer {
    unsafe { menkhodur_san_name(b, list.as_ptr(), list.len(), number, out.as_mut_ptr(), out.len()) }
}

pub fn san_read_standard(b: Record, list: &[u16], text: &[u8]) -> Answer {
    unsafe { menkhodur_san_read_standard(b, list.as_ptr(), list.len(), text.as_ptr(), text.len()) }
}

pub fn san_name_standard(b: Record, list: &[u16], number: u64, out: &mut [u8]) -> Answer {
    unsafe { menkhodur_san_name_standard(b, list.as_ptr(), list.len(), number, out.as_mut_ptr(), out.len()) }
}

pub fn in_check(b: Record) -> Answer {
    unsafe { menkhodur_in_check(b) }
}

pub fn legal_list(b: Record, out: &mut [u16]) -> Answer {
    unsafe { menkhodur_legal_list(b, out.as_mut_ptr(), out.len()) }
}

pub fn list_judged(b: Record, in_check: u8, list: &[u16]) -> Judged {
    unsafe { menkhodur_list_judged(b, in_check, list.as_ptr(), list.len()) }
}

pub fn roll_write(b: Record, actions: &[u8], count: u64, out: &mut [u8]) -> Answer {
    unsafe { menkhodur_roll_write(b, actions.as_ptr(), actions.len(), count, out.as_mut_ptr(), out.len()) }
}

pub fn roll_read(roll: &[u8], actions: &mut [u8]) -> Roll {
    unsafe { menkhodur_roll_read(roll.as_ptr(), roll.len(), actions.as_mut_ptr(), actions.len()) }
}

pub fn roll_read_old(roll: &[u8], actions: &mut [u8]) -> Roll {
    unsafe { menkhodur_roll_read_old(roll.as_ptr(), roll.len(), actions.as_mut_ptr(), actions.len()) }
}

pub fn roll_differences(first: &[u8], second: &[u8], out: &mut [u8]) -> Answer {
    let (room, out) = (out.len(), out.as_mut_ptr());
    unsafe { menkhodur_roll_differences(first.as_ptr(), first.len(), second.as_ptr(), second.len(), out, room) }
}

pub fn pgn_check(text: &[u8]) -> PgnCount {
    unsafe { menkhodur_pgn_check(text.as_ptr(), text.len()) }
}

pub fn pgn_next(text: &[u8], offset: u64, level: u64) -> PgnMove {
    unsafe { menkhodur_pgn_next(text.as_ptr(), text.len(), offset, level) }
}

pub fn game_step(text: &[u8], offset: u64, b: Record, list: &[u16], out: &mut [u8]) -> GameStep {
    let (entries, room) = (list.len(), out.len());
    unsafe { menkhodur_game_step(text.as_ptr(), text.len(), offset, b, list.as_ptr(), entries, out.as_mut_ptr(), room) }
}

pub fn play(text: &[u8], b: Record, list: &[u16], out: &mut [u8]) -> GameStep {
    let (entries, room) = (list.len(), out.len());
    unsafe { menkhodur_play(text.as_ptr(), text.len(), b, list.as_ptr(), entries, out.as_mut_ptr(), room) }
}

/// What stands on the board, as the host gives it to the log.
#[derive(Clone, PartialEq, Eq, Debug)]
pub struct Position {
    pub record: Record,
    pub in_check: u8,
    pub list: Vec<u16>,
}

/// The two lent parts of a log and its two counts.
pub struct Log {
    pub actions: Vec<u8>,
    pub positions: Vec<u8>,
    pub action_count: u64,
    pub move_count: u64,
}

impl Log {
    pub fn new() -> Log {
        let (actions, positions) = (vec![0; ACTIONS_LENGTH], vec![0; POSITIONS_LENGTH]);
        Log { actions, positions, action_count: 0, move_count: 0 }
    }

    fn keep(&mut self, counts: Counts) -> Counts {
        self.action_count = counts.actions;
        self.move_count = counts.moves;
        counts
    }

    pub fn start(&mut self, p: &Position) -> Counts {
        let (a, ps) = (&self.actions, &mut self.positions);
        let counts = unsafe {
            menkhodur_game_start(
                a.as_ptr(), a.len(), ps.as_mut_ptr(), ps.len(), p.record, p.in_check, p.list.as_ptr(), p.list.len(),
            )
        };
        self.keep(counts)
    }

    pub fn make_move(&mut self, number: u64, next: &Position) -> Counts {
        let (n, m) = (self.action_count, self.move_count);
        let (a, ps) = (&mut self.actions, &mut self.positions);
        let counts = unsafe {
            menkhodur_game_make_move(
                a.as_mut_ptr(), a.len(), ps.as_mut_ptr(), ps.len(), n, m, number, next.record, next.in_check,
                next.list.as_ptr(), next.list.len(),
            )
        };
        self.keep(counts)
    }

    pub fn offer_draw(&mut self, colour: u8) -> Counts {
        let (a, ps, n, m) = (&mut self.actions, &self.positions, self.action_count, self.move_count);
        let counts = unsafe { menkhodur_game_offer_draw(a.as_mut_ptr(), a.len(), ps.as_ptr(), ps.len(), n, m, colour) };
        self.keep(counts)
    }

    pub fn resign(&mut self, colour: u8) -> Counts {
        let (a, ps, n, m) = (&mut self.actions, &self.positions, self.action_count, self.move_count);
        let counts = unsafe { menkhodur_game_resign(a.as_mut_ptr(), a.len(), ps.as_ptr(), ps.len(), n, m, colour) };
        self.keep(counts)
    }

    pub fn accept_draw(&mut self) -> Counts {
        let (a, ps, n, m) = (&mut self.actions, &self.positions, self.action_count, self.move_count);
        let counts = unsafe { menkhodur_game_accept_draw(a.as_mut_ptr(), a.len(), ps.as_ptr(), ps.len(), n, m) };
        self.keep(counts)
    }

    pub fn declare_draw(&mut self) -> Counts {
        let (a, ps, n, m) = (&mut self.actions, &self.positions, self.action_count, self.move_count);
        let counts = unsafe { menkhodur_game_declare_draw(a.as_mut_ptr(), a.len(), ps.as_ptr(), ps.len(), n, m) };
        self.keep(counts)
    }

    pub fn result(&self) -> Answer {
        let (a, ps, n, m) = (&self.actions, &self.positions, self.action_count, self.move_count);
        unsafe { menkhodur_game_result(a.as_ptr(), a.len(), ps.as_ptr(), ps.len(), n, m) }
    }

    pub fn can_declare_draw(&self) -> Answer {
        let (a, ps, n, m) = (&self.actions, &self.positions, self.action_count, self.move_count);
        unsafe { menkhodur_game_can_declare_draw(a.as_ptr(), a.len(), ps.as_ptr(), ps.len(), n, m) }
    }

    pub fn can_claim_by_laws(&self) -> Answer {
        let (a, ps, n, m) = (&self.actions, &self.positions, self.action_count, self.move_count);
        unsafe { menkhodur_game_can_claim_by_laws(a.as_ptr(), a.len(), ps.as_ptr(), ps.len(), n, m) }
    }

    pub fn ruling(&self) -> Ruling {
        let (a, ps, n, m) = (&self.actions, &self.positions, self.action_count, self.move_count);
        unsafe { menkhodur_game_ruling(a.as_ptr(), a.len(), ps.as_ptr(), ps.len(), n, m) }
    }
}
