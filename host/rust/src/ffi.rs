//! The archive as C has it (`host/menkhodur.h`): structs by value, slices as a pointer and then a length.

use crate::error::Error;
use crate::lent;

#[repr(C)]
#[derive(Clone, Copy)]
pub(crate) struct Board {
    pub(crate) pieces: [u8; 64],
    pub(crate) side_to_move: u8,
    pub(crate) white_castle_rights: u8,
    pub(crate) black_castle_rights: u8,
    pub(crate) en_passant: u8,
    pub(crate) half_moves: u16,
    pub(crate) full_moves: u16,
}

#[repr(C)]
#[derive(Clone, Copy)]
pub(crate) struct Answer {
    pub(crate) number: u64,
    pub(crate) value: u64,
}

#[repr(C)]
#[derive(Clone, Copy)]
pub(crate) struct Placed {
    pub(crate) number: u64,
    pub(crate) value: u64,
    pub(crate) offset: u64,
}

#[repr(C)]
#[derive(Clone, Copy)]
pub(crate) struct Stepped {
    pub(crate) number: u64,
    pub(crate) board: Board,
}

#[repr(C)]
#[derive(Clone, Copy)]
pub(crate) struct Fen {
    pub(crate) number: u64,
    pub(crate) offset: u64,
    pub(crate) board: Board,
}

#[repr(C)]
#[derive(Clone, Copy)]
pub(crate) struct Counts {
    pub(crate) number: u64,
    pub(crate) actions: u64,
    pub(crate) moves: u64,
}

#[repr(C)]
#[derive(Clone, Copy)]
pub(crate) struct PgnCount {
    pub(crate) number: u64,
    pub(crate) offset: u64,
    pub(crate) moves: u64,
}

#[repr(C)]
#[derive(Clone, Copy)]
pub(crate) struct PgnNext {
    pub(crate) number: u64,
    pub(crate) offset: u64,
    pub(crate) found: u64,
    pub(crate) start: u64,
    pub(crate) length: u64,
    pub(crate) level: u64,
    pub(crate) closed: u64,
    pub(crate) opened: u64,
}

#[repr(C)]
#[derive(Clone, Copy)]
pub(crate) struct GameStep {
    pub(crate) number: u64,
    pub(crate) offset: u64,
    pub(crate) found: u64,
    pub(crate) start: u64,
    pub(crate) length: u64,
    pub(crate) played: u64,
    pub(crate) key_length: u64,
    pub(crate) board: Board,
}

#[repr(C)]
#[derive(Clone, Copy)]
pub(crate) struct Roll {
    pub(crate) number: u64,
    pub(crate) actions: u64,
    pub(crate) board: Board,
}

#[repr(C)]
#[derive(Clone, Copy)]
pub(crate) struct Ruled {
    pub(crate) number: u64,
    pub(crate) count: u64,
    pub(crate) laws_count: u64,
    pub(crate) equals: u64,
    pub(crate) first: u64,
    pub(crate) second: u64,
    pub(crate) claim: u64,
    pub(crate) laws_claim: u64,
}

#[repr(C)]
#[derive(Clone, Copy)]
pub(crate) struct Judged {
    pub(crate) number: u64,
    pub(crate) in_check: u64,
    pub(crate) entries: u64,
    pub(crate) wrong: u64,
    pub(crate) named: u64,
}

#[repr(C)]
#[derive(Clone, Copy)]
pub(crate) struct Report {
    pub(crate) number: u64,
    pub(crate) lines: u64,
    pub(crate) accepted: u64,
    pub(crate) refused: u64,
    pub(crate) men: [u64; lent::KINDS],
    pub(crate) repeated: u64,
}

impl Board {
    pub(crate) fn of(record: &lent::Record) -> Board {
        let lent::Record { numbers, half_moves, full_moves } = *record;
        let [pieces @ .., side_to_move, white_castle_rights, black_castle_rights, en_passant] = numbers;
        Board { pieces, side_to_move, white_castle_rights, black_castle_rights, en_passant, half_moves, full_moves }
    }

    pub(crate) fn record(&self) -> lent::Record {
        let mut numbers = [0; lent::PAGE_RECORD];
        let (pieces, others) = numbers.split_at_mut(self.pieces.len());
        pieces.copy_from_slice(&self.pieces);
        others.copy_from_slice(&[self.side_to_move, self.white_castle_rights, self.black_castle_rights, self.en_passant]);
        lent::Record { numbers, half_moves: self.half_moves, full_moves: self.full_moves }
    }
}

impl Answer {
    pub(crate) fn judged(self) -> Result<u64, Error> {
        Error::judge(self.number, self.value).map(|()| self.value)
    }

    /// Of a page: a refusal tells how many lines there are, not a length.
    pub(crate) fn judged_page(self) -> Result<u64, Error> {
        // A text that was lent has at most as many lines as bytes, so nothing is cut here on any target.
        if self.number == 7 { Err(Error::PageTooShort { lines: self.value as usize }) } else { self.judged() }
    }

    /// Of a list: a refusal tells how many moves there are, at most 255, not a length.
    pub(crate) fn judged_list(self) -> Result<u64, Error> {
        if self.number == 7 { Err(Error::ListTooShort { moves: self.value as usize }) } else { self.judged() }
    }
}

impl Placed {
    pub(crate) fn judged(self) -> Result<u64, Error> {
        Error::judge(self.number, self.offset).map(|()| self.value)
    }

    /// Of a text that is read and written: a refusal tells a place in what was read, or the length that is needed.
    pub(crate) fn judged_written(self) -> Result<u64, Error> {
        Error::judge(self.number, if self.number == 7 { self.value } else { self.offset }).map(|()| self.value)
    }
}

impl Stepped {
    pub(crate) fn judged(self) -> Result<lent::Record, Error> {
        Error::judge(self.number, 0).map(|()| self.board.record())
    }
}

impl Fen {
    pub(crate) fn judged(self) -> Result<lent::Record, Error> {
        Error::judge(self.number, self.offset).map(|()| self.board.record())
    }
}

impl Counts {
    pub(crate) fn judged(self) -> Result<lent::Counts, Error> {
        Error::judge(self.number, 0).map(|()| lent::Counts { actions: self.actions, moves: self.moves })
    }
}

impl GameStep {
    /// A move, or that none is left. A refusal tells the place of what is wrong in the text, the part that holds the move, or the length
    /// needed.
    pub(crate) fn judged(self) -> Result<Option<lent::Step>, Error> {
        match self.number {
            4..=6 => return Err(Error::in_step(self.number, self.start, self.length)),
            7 => Error::judge(7, self.key_length)?,
            number => Error::judge(number, self.offset)?,
        }
        Ok((self.found == 1).then(|| self.step()))
    }

    /// Of a move text alone: the part that holds the move is the whole, so a refusal need not tell it.
    pub(crate) fn judged_alone(self) -> Result<lent::Step, Error> {
        Error::judge(self.number, self.key_length).map(|()| self.step())
    }

    // A move lies in a text that was lent, its number is at most 28,671, and a key has at most 85 bytes: nothing is cut.
    fn step(&self) -> lent::Step {
        let (start, length, key) = (self.start as usize, self.length as usize, self.key_length as usize);
        lent::Step { start, length, played: self.played as u16, record: self.board.record(), key }
    }
}

impl Roll {
    pub(crate) fn judged(self) -> Result<lent::Rolled, Error> {
        Error::judge(self.number, 0).map(|()| lent::Rolled { record: self.board.record(), actions: self.actions })
    }
}

impl Ruled {
    pub(crate) fn judged(self) -> Result<lent::Ruled, Error> {
        let Ruled { number, count, laws_count, equals, first, second, claim, laws_claim } = self;
        Error::judge(number, 0).map(|()| lent::Ruled { count, laws_count, equals, first, second, claim, laws_claim })
    }
}

impl Judged {
    // The byte is 0 or 1, a list has at most 255 moves, what is wrong has a number up to 4, and a move one up to 28,671: nothing is cut.
    pub(crate) fn judged(self) -> Result<lent::Judged, Error> {
        let Judged { number, in_check, entries, wrong, named } = self;
        Error::judge(number, 0)?;
        Ok(lent::Judged { in_check: in_check as u8, entries: entries as usize, wrong: wrong as u8, named: named as u16 })
    }
}

impl Report {
    /// As a page is judged; 13 is told apart from that of a log.
    pub(crate) fn judged(self) -> Result<lent::Report, Error> {
        let Report { number, lines, accepted, refused, men, repeated } = self;
        if number == 13 {
            return Err(Error::PageTooLong);
        }
        Answer { number, value: lines }.judged_page().map(|lines| lent::Report { lines, accepted, refused, men, repeated })
    }
}

// The declarations are those of the archive's crate, which `host/menkhodur.h` repeats; the tests below and those of the package run each
// of them. `safe` are those that take and give numbers alone: every number is judged, and none of the caller's memory is looked at.
unsafe extern "C" {
    pub(crate) safe fn menkhodur_version() -> u64;

    pub(crate) safe fn menkhodur_make_square(rank: u8, file: u8) -> Answer;
    pub(crate) safe fn menkhodur_rights_add(rights: u8, added: u8) -> Answer;
    pub(crate) safe fn menkhodur_rights_remove(rights: u8, removed: u8) -> Answer;
    pub(crate) safe fn menkhodur_square_rights(colour: u8, square: u8) -> Answer;

    pub(crate) safe fn menkhodur_piece(board: Board, square: u8, code: u8) -> Stepped;
    pub(crate) safe fn menkhodur_clear_square(board: Board, square: u8) -> Stepped;
    pub(crate) safe fn menkhodur_side_to_move(board: Board, colour: u8) -> Stepped;
    pub(crate) safe fn menkhodur_castle_rights(board: Board, colour: u8, rights: u8) -> Stepped;
    pub(crate) safe fn menkhodur_en_passant(board: Board, file: u8) -> Stepped;
    pub(crate) safe fn menkhodur_half_moves(board: Board, half_moves: u64) -> Stepped;
    pub(crate) safe fn menkhodur_full_moves(board: Board, full_moves: u64) -> Stepped;
    pub(crate) safe fn menkhodur_board_after(board: Board, number: u64) -> Stepped;
    pub(crate) safe fn menkhodur_board_settled(board: Board) -> Stepped;

    pub(crate) fn menkhodur_fen_read(text: *const u8, length: usize) -> Fen;
    pub(crate) fn menkhodur_fen_write(board: Board, out: *mut u8, room: usize) -> Answer;
    pub(crate) fn menkhodur_fen_read_full(text: *const u8, length: usize) -> Fen;
    pub(crate) fn menkhodur_fen_write_full(board: Board, out: *mut u8, room: usize) -> Answer;
    pub(crate) fn menkhodur_fen_settled(text: *const u8, length: usize, out: *mut u8, room: usize) -> Placed;
    pub(crate) fn menkhodur_fen_page(
        text: *const u8,
        length: usize,
        records: *mut u8,
        records_length: usize,
        numbers: *mut u64,
        numbers_length: usize,
    ) -> Answer;
    pub(crate) fn menkhodur_fen_report(
        text: *const u8,
        length: usize,
        records: *mut u8,
        records_length: usize,
        numbers: *mut u64,
        numbers_length: usize,
    ) -> Report;

    pub(crate) fn menkhodur_move_read(text: *const u8, length: usize) -> Placed;
    pub(crate) fn menkhodur_move_write(number: u64, out: *mut u8, room: usize) -> Answer;
    pub(crate) fn menkhodur_san_read(board: Board, list: *const u16, entries: usize, text: *const u8, length: usize) -> Answer;
    pub(crate) fn menkhodur_san_name(board: Board, list: *const u16, entries: usize, number: u64, out: *mut u8, room: usize) -> Answer;
    pub(crate) fn menkhodur_san_read_standard(board: Board, list: *const u16, entries: usize, text: *const u8, length: usize) -> Answer;
    pub(crate) fn menkhodur_san_name_standard(
        board: Board,
        list: *const u16,
        entries: usize,
        number: u64,
        out: *mut u8,
        room: usize,
    ) -> Answer;

    pub(crate) safe fn menkhodur_in_check(board: Board) -> Answer;
    pub(crate) fn menkhodur_legal_list(board: Board, out: *mut u16, room: usize) -> Answer;
    pub(crate) fn menkhodur_list_judged(board: Board, in_check: u8, list: *const u16, entries: usize) -> Judged;

    pub(crate) fn menkhodur_game_start(
        actions: *const u8,
        actions_length: usize,
        positions: *mut u8,
        positions_length: usize,
        board: Board,
        in_check: u8,
        list: *const u16,
        entries: usize,
    ) -> Counts;
    pub(crate) fn menkhodur_game_make_move(
        actions: *mut u8,
        actions_length: usize,
        positions: *mut u8,
        positions_length: usize,
        action_count: u64,
        move_count: u64,
        number: u64,
        next: Board,
        in_check: u8,
        list: *const u16,
        entries: usize,
    ) -> Counts;
    pub(crate) fn menkhodur_game_offer_draw(
        actions: *mut u8,
        actions_length: usize,
        positions: *const u8,
        positions_length: usize,
        action_count: u64,
        move_count: u64,
        colour: u8,
    ) -> Counts;
    pub(crate) fn menkhodur_game_resign(
        actions: *mut u8,
        actions_length: usize,
        positions: *const u8,
        positions_length: usize,
        action_count: u64,
        move_count: u64,
        colour: u8,
    ) -> Counts;
    pub(crate) fn menkhodur_game_accept_draw(
        actions: *mut u8,
        actions_length: usize,
        positions: *const u8,
        positions_length: usize,
        action_count: u64,
        move_count: u64,
    ) -> Counts;
    pub(crate) fn menkhodur_game_declare_draw(
        actions: *mut u8,
        actions_length: usize,
        positions: *const u8,
        positions_length: usize,
        action_count: u64,
        move_count: u64,
    ) -> Counts;
    pub(crate) fn menkhodur_game_result(
        actions: *const u8,
        actions_length: usize,
        positions: *const u8,
        positions_length: usize,
        action_count: u64,
        move_count: u64,
    ) -> Answer;
    pub(crate) fn menkhodur_game_can_declare_draw(
        actions: *const u8,
        actions_length: usize,
        positions: *const u8,
        positions_length: usize,
        action_count: u64,
        move_count: u64,
    ) -> Answer;
    pub(crate) fn menkhodur_game_can_claim_by_laws(
        actions: *const u8,
        actions_length: usize,
        positions: *const u8,
        positions_length: usize,
        action_count: u64,
        move_count: u64,
    ) -> Answer;
    pub(crate) fn menkhodur_game_ruling(
        actions: *const u8,
        actions_length: usize,
        positions: *const u8,
        positions_length: usize,
        action_count: u64,
        move_count: u64,
    ) -> Ruled;

    pub(crate) fn menkhodur_roll_write(
        board: Board,
        actions: *const u8,
        actions_length: usize,
        action_count: u64,
        out: *mut u8,
        room: usize,
    ) -> Answer;
    pub(crate) fn menkhodur_roll_read(roll: *const u8, length: usize, actions: *mut u8, actions_length: usize) -> Roll;
    pub(crate) fn menkhodur_roll_read_old(roll: *const u8, length: usize, actions: *mut u8, actions_length: usize) -> Roll;
    pub(crate) fn menkhodur_roll_differences(
        first: *const u8,
        first_length: usize,
        second: *const u8,
        second_length: usize,
        out: *mut u8,
        room: usize,
    ) -> Answer;

    pub(crate) fn menkhodur_pgn_check(text: *const u8, length: usize) -> PgnCount;
    pub(crate) fn menkhodur_pgn_next(text: *const u8, length: usize, offset: u64, level: u64) -> PgnNext;

    pub(crate) fn menkhodur_game_step(
        text: *const u8,
        length: usize,
        offset: u64,
        board: Board,
        list: *const u16,
        entries: usize,
        out: *mut u8,
        room: usize,
    ) -> GameStep;
    pub(crate) fn menkhodur_play(
        text: *const u8,
        length: usize,
        board: Board,
        list: *const u16,
        entries: usize,
        out: *mut u8,
        room: usize,
    ) -> GameStep;
}

#[cfg(test)]
#[path = "ffi_tests.rs"]
mod tests;
