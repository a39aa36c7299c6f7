//! What the safe layer does not show: the layouts, and the fields that come back with a refusal.

use super::*;
use crate::lent::{ACTIONS_PART, MAX_FEN, MAX_FULL_FEN, POSITION_BYTES, POSITIONS_PART};
use std::mem::{align_of, offset_of, size_of};

// Out of range in its side alone, and with no two neighbours alike, so that a record that comes back shifted would show.
fn bad_record() -> lent::Record {
    let mut numbers = std::array::from_fn(|i| (i % 13) as u8);
    numbers[64..].copy_from_slice(&[2, 1, 3, 8]);
    lent::Record { numbers, half_moves: 0x1234, full_moves: 0x2345 }
}

fn empty() -> lent::Record {
    lent::Record::from([0; 68])
}

// What a refused reader hands out, and no call takes.
fn zeros() -> lent::Record {
    lent::Record { full_moves: 0, ..empty() }
}

fn counts(answer: Counts) -> (u64, u64, u64) {
    (answer.number, answer.actions, answer.moves)
}

fn start(actions: &[u8], positions: &mut [u8], record: &lent::Record, in_check: u8, list: &[u16]) -> (u64, u64, u64) {
    let (part, room) = (positions.as_mut_ptr(), positions.len());
    let (board, entries) = (Board::of(record), list.len());
    // SAFETY: each pointer and length are those of one slice, and the one that is written is borrowed mutably.
    counts(unsafe { menkhodur_game_start(actions.as_ptr(), actions.len(), part, room, board, in_check, list.as_ptr(), entries) })
}

#[test]
fn structs_lie_as_the_header_has_them() {
    assert_eq!((size_of::<Board>(), align_of::<Board>()), (72, 2));
    assert_eq!(offset_of!(Board, pieces), 0);
    assert_eq!(offset_of!(Board, side_to_move), 64);
    assert_eq!(offset_of!(Board, white_castle_rights), 65);
    assert_eq!(offset_of!(Board, black_castle_rights), 66);
    assert_eq!(offset_of!(Board, en_passant), 67);
    assert_eq!((offset_of!(Board, half_moves), offset_of!(Board, full_moves)), (68, 70));

    assert_eq!((size_of::<Answer>(), align_of::<Answer>()), (16, 8));
    assert_eq!((offset_of!(Answer, number), offset_of!(Answer, value)), (0, 8));

    assert_eq!((size_of::<Placed>(), align_of::<Placed>()), (24, 8));
    assert_eq!((offset_of!(Placed, number), offset_of!(Placed, value), offset_of!(Placed, offset)), (0, 8, 16));

    assert_eq!((size_of::<Stepped>(), align_of::<Stepped>()), (80, 8));
    assert_eq!((offset_of!(Stepped, number), offset_of!(Stepped, board)), (0, 8));

    assert_eq!((size_of::<Fen>(), align_of::<Fen>()), (88, 8));
    assert_eq!((offset_of!(Fen, number), offset_of!(Fen, offset), offset_of!(Fen, board)), (0, 8, 16));

    assert_eq!((size_of::<Counts>(), align_of::<Counts>()), (24, 8));
    assert_eq!((offset_of!(Counts, number), offset_of!(Counts, actions), offset_of!(Counts, moves)), (0, 8, 16));

    assert_eq!((size_of::<Roll>(), align_of::<Roll>()), (88, 8));
    assert_eq!((offset_of!(Roll, number), offset_of!(Roll, actions), offset_of!(Roll, board)), (0, 8, 16));
}

#[test]
fn the_answers_of_move_text_are_in_the_headers_order() {
    assert_eq!((size_of::<PgnCount>(), align_of::<PgnCount>()), (24, 8));
    assert_eq!((offset_of!(PgnCount, number), offset_of!(PgnCount, offset), offset_of!(PgnCount, moves)), (0, 8, 16));
    assert_eq!((size_of::<PgnNext>(), align_of::<PgnNext>()), (64, 8));
    let front = [offset_of!(PgnNext, number), offset_of!(PgnNext, offset), offset_of!(PgnNext, found), offset_of!(PgnNext, start)];
    let back = [offset_of!(PgnNext, length), offset_of!(PgnNext, level), offset_of!(PgnNext, closed), offset_of!(PgnNext, opened)];
    assert_eq!((front, back), ([0, 8, 16, 24], [32, 40, 48, 56]));
}

#[test]
fn a_step_is_seven_numbers_and_a_board_in_the_headers_order() {
    assert_eq!((size_of::<GameStep>(), align_of::<GameStep>()), (128, 8));
    let front = [offset_of!(GameStep, number), offset_of!(GameStep, offset), offset_of!(GameStep, found), offset_of!(GameStep, start)];
    let back = [offset_of!(GameStep, length), offset_of!(GameStep, played), offset_of!(GameStep, key_length), offset_of!(GameStep, board)];
    assert_eq!((front, back), ([0, 8, 16, 24], [32, 40, 48, 56]));
}

#[test]
fn a_ruling_is_eight_numbers_in_the_headers_order() {
    assert_eq!((size_of::<Ruled>(), align_of::<Ruled>()), (64, 8));
    let front = [offset_of!(Ruled, number), offset_of!(Ruled, count), offset_of!(Ruled, laws_count), offset_of!(Ruled, equals)];
    let back = [offset_of!(Ruled, first), offset_of!(Ruled, second), offset_of!(Ruled, claim), offset_of!(Ruled, laws_claim)];
    assert_eq!((front, back), ([0, 8, 16, 24], [32, 40, 48, 56]));
}

#[test]
fn a_judgement_is_five_numbers_in_the_headers_order() {
    assert_eq!((size_of::<Judged>(), align_of::<Judged>()), (40, 8));
    let front = [offset_of!(Judged, number), offset_of!(Judged, in_check), offset_of!(Judged, entries)];
    assert_eq!((front, offset_of!(Judged, wrong), offset_of!(Judged, named)), ([0, 8, 16], 24, 32));
}

#[test]
fn a_report_is_seventeen_numbers_in_the_headers_order() {
    assert_eq!((size_of::<Report>(), align_of::<Report>()), (136, 8));
    let front = [offset_of!(Report, number), offset_of!(Report, lines), offset_of!(Report, accepted), offset_of!(Report, refused)];
    assert_eq!((front, offset_of!(Report, men), offset_of!(Report, repeated)), ([0, 8, 16, 24], 32, 128));
}

#[test]
fn the_parts_have_the_papers_lengths() {
    assert_eq!((ACTIONS_PART, POSITIONS_PART), (32_768, 2_392_648));
    assert_eq!((lent::MAX_ROLL, lent::MAX_DIFFERENCES, MAX_FEN, MAX_FULL_FEN, lent::MAX_COUNT), (20_554, 658, 85, 91, 9_999));
    assert_eq!((lent::REPORT_LINES, lent::KINDS), (4_096, 12));
}

#[test]
fn a_record_is_the_struct_and_back() {
    let record = bad_record();
    let board = Board::of(&record);
    assert_eq!(board.pieces, record.numbers[..64]);
    assert_eq!([board.side_to_move, board.white_castle_rights, board.black_castle_rights, board.en_passant], [2, 1, 3, 8]);
    assert_eq!([board.half_moves, board.full_moves], [0x1234, 0x2345]);
    assert_eq!(board.record(), record);
}

#[test]
fn a_refused_step_hands_its_record_back() {
    let (bad, good) = (Board::of(&bad_record()), Board::of(&empty()));
    let of_bad = [
        menkhodur_piece(bad, 0, 1),
        menkhodur_clear_square(bad, 0),
        menkhodur_side_to_move(bad, 0),
        menkhodur_castle_rights(bad, 0, 0),
        menkhodur_en_passant(bad, 0),
        menkhodur_half_moves(bad, 0),
        menkhodur_full_moves(bad, 1),
        menkhodur_board_after(bad, 1153),
        menkhodur_board_after(bad, u64::MAX),
        menkhodur_board_settled(bad),
    ];
    assert!(of_bad.iter().all(|step| step.number == 5 && step.board.record() == bad_record()));
    let of_good = [
        menkhodur_piece(good, 64, 1),
        menkhodur_piece(good, 0, 13),
        menkhodur_clear_square(good, 64),
        menkhodur_side_to_move(good, 2),
        menkhodur_castle_rights(good, 0, 4),
        menkhodur_en_passant(good, 9),
        menkhodur_half_moves(good, 10_000),
        menkhodur_half_moves(good, 65_536),
        menkhodur_full_moves(good, 0),
        menkhodur_full_moves(good, 65_537),
    ];
    assert!(of_good.iter().all(|step| step.number == 5 && step.board.record() == empty()));
    let of_zeros = menkhodur_piece(Board::of(&zeros()), 0, 1);
    assert_eq!((of_zeros.number, of_zeros.board.record()), (5, zeros()));
    for number in [28_672, 65_536, 65_536 + 1153, 70_000, (1 << 32) + 1153, u64::MAX] {
        let mut good = bad_record();
        good.numbers[64] = 1;
        let step = menkhodur_board_after(Board::of(&good), number);
        assert_eq!((step.number, step.board.record()), (6, good));
    }
}

#[test]
fn a_refused_fen_is_all_zeros_and_an_accepted_one_has_no_offset() {
    let refused = [(&b"8/8 w -"[..], 18, 7), (b"", 18, 0), (b"rn9q x - -", 19, 2), (b"rnbq x - -", 20, 5)];
    let both = |text: &[u8]| {
        // SAFETY: pointer and length are those of one slice, and the functions only read.
        let answers = unsafe { [menkhodur_fen_read(text.as_ptr(), text.len()), menkhodur_fen_read_full(text.as_ptr(), text.len())] };
        answers.map(|fen| (fen.number, fen.offset, fen.board.record()))
    };
    for (text, number, offset) in refused {
        assert_eq!(both(text), [(number, offset, zeros()); 2]);
    }
    for (text, offset) in [(&b" w - -"[..], 6), (b" w - - 258 0", 11), (b" w - - x", 7)] {
        assert_eq!(both(text), [(0, 0, empty()), (25, offset, zeros())]);
    }
    let counted = lent::Record { half_moves: 258, full_moves: 772, ..empty() };
    assert_eq!(both(b" w - - 258 772"), [(0, 0, empty()), (0, 0, counted)]);
}

#[test]
fn a_page_has_its_lines_as_value_accepted_or_refused() {
    let text = b"8/8 w -\nK b - e3\n9 w - -";
    for (bytes, told, number) in [(204, 6, 0), (205, 7, 0), (203, 6, 7), (204, 5, 7), (0, 0, 7)] {
        let (mut records, mut numbers) = ([0xA5; 205], [9; 7]);
        // SAFETY: each pointer and length are those of one slice or of its front, and the two that are written are borrowed mutably.
        let answer = unsafe { menkhodur_fen_page(text.as_ptr(), text.len(), records.as_mut_ptr(), bytes, numbers.as_mut_ptr(), told) };
        assert_eq!((answer.number, answer.value), (number, 3));
        if number == 0 {
            assert_eq!((numbers[..6].to_vec(), records[68 + 56], records[68 + 67]), (vec![18, 7, 0, 0, 19, 0], 6, 5));
            assert_eq!((numbers[6], records[204]), (9, 0xA5));
        } else {
            assert_eq!((numbers, records), ([9; 7], [0xA5; 205]));
        }
    }
}

// The number and the lines, then the other figures of a report in rooms of so many bytes and numbers; and what is then in the rooms.
fn report(text: &[u8], bytes: usize, told: usize) -> ([u64; 2], [u64; 15], Vec<u8>, Vec<u64>) {
    let (mut records, mut numbers) = (vec![0xA5; bytes], vec![9; told]);
    // SAFETY: each pointer and length are those of one slice, and the two that are written are borrowed mutably.
    let r = unsafe { menkhodur_fen_report(text.as_ptr(), text.len(), records.as_mut_ptr(), bytes, numbers.as_mut_ptr(), told) };
    let mut figures = [0; 15];
    (figures[0], figures[1], figures[14]) = (r.accepted, r.refused, r.repeated);
    figures[2..14].copy_from_slice(&r.men);
    ([r.number, r.lines], figures, records, numbers)
}

#[test]
fn a_refused_report_has_its_lines_alone_or_nothing() {
    // Two white pawns and a black king, twice; and a line that is refused.
    let text = b"PPk w - -\n9 w - -\nPPk w - - 7 20";
    let (judged, figures, records, numbers) = report(text, 205, 7);
    assert_eq!((judged, figures), ([0, 3], [2, 1, 4, 0, 0, 0, 0, 0, 0, 0, 0, 0, 0, 2, 1]));
    assert_eq!((numbers, records[56..59].to_vec(), records[204]), (vec![0, 0, 19, 0, 0, 0, 9], vec![1, 1, 12], 0xA5));
    for (bytes, told) in [(203, 6), (204, 5), (0, 0)] {
        for text in [&text[..], b"\n\n\n"] {
            assert_eq!(report(text, bytes, told), ([7, 3], [0; 15], vec![0xA5; bytes], vec![9; told]));
        }
    }
    // More than 4,096 lines: not even their number, in rooms that fit and in none.
    for (bytes, told) in [(68 * 4_097, 2 * 4_097), (0, 0)] {
        assert_eq!(report(&[b'\n'; 4_097], bytes, told), ([13, 0], [0; 15], vec![0xA5; bytes], vec![9; told]));
    }
}

#[test]
fn a_coordinate_text_has_a_value_or_an_offset() {
    let refused = [(&b"z9e4"[..], 2, 0), (b"e9e4", 2, 1), (b"e2z9", 2, 2), (b"e2e9", 2, 3), (b"z", 3, 1), (b"e2e", 3, 3), (b"e2e4k", 3, 4)];
    let accepted = [(&b"a1a1"[..], 0), (b"e2e4", 1_804), (b"e2e4q", 22_284), (b"e2e4kx", 1_804)];
    let wants = refused.map(|(text, number, offset)| (text, (number, 0, offset)));
    for (text, want) in wants.into_iter().chain(accepted.map(|(text, value)| (text, (0, value, 0)))) {
        // SAFETY: pointer and length are those of one slice, and the function only reads.
        let placed = unsafe { menkhodur_move_read(text.as_ptr(), text.len()) };
        assert_eq!((placed.number, placed.value, placed.offset), want);
    }
}

// The key of an unusable file has 27 bytes, those of the text without it.
#[test]
fn a_settled_key_has_a_length_or_an_offset() {
    let text = &b"8/8/8/8/4P3/8/8/8 b - e3"[..];
    let rows = [
        (text, 27, 0, 27, 0),
        (text, 26, 7, 27, 0),
        (b"8/8 w -", 27, 18, 0, 7),
        (b"rn9q x - -", 0, 19, 0, 2),
        (b"rnbq x - -", 27, 20, 0, 5),
    ];
    for (text, room, number, value, offset) in rows {
        let mut out = [0xA5; 28];
        // SAFETY: each pointer and length are those of one slice or of its front, and the one that is written is borrowed mutably.
        let placed = unsafe { menkhodur_fen_settled(text.as_ptr(), text.len(), out.as_mut_ptr(), room) };
        assert_eq!((placed.number, placed.value, placed.offset), (number, value, offset));
        let want = if number == 0 { *b"8/8/8/8/4P3/8/8/8 b - - 0 1\xA5" } else { [0xA5; 28] };
        assert_eq!(out, want);
    }
}

// The eight numbers of the next move's answer.
fn next(text: &[u8], offset: u64, level: u64) -> [u64; 8] {
    // SAFETY: pointer and length are those of one slice, and the function only reads.
    let n = unsafe { menkhodur_pgn_next(text.as_ptr(), text.len(), offset, level) };
    [n.number, n.offset, n.found, n.start, n.length, n.level, n.closed, n.opened]
}

#[test]
fn without_a_move_no_place_and_no_bracket_is_told() {
    assert_eq!(next(b"e4) ((d4", 2, 1), [0, 0, 1, 6, 2, 2, 1, 2]);
    // None is left, behind brackets; the same behind a result.
    assert_eq!((next(b"e4)", 2, 1), next(b"e4) () 1-0 e5", 2, 1)), ([0; 8], [0; 8]));
    assert_eq!(next(b"e4) ((d4", 2, 0), [23, 2, 0, 0, 0, 0, 0, 0]);
    assert_eq!(next(b"e4) ((d4", 2, 9), [22, 2, 0, 0, 0, 0, 0, 0]);
    assert_eq!(next(b"e4 ((", 2, 0), [21, 4, 0, 0, 0, 0, 0, 0]);
}

// The seven numbers of a step's answer, its record, and the room behind it.
fn step(text: &[u8], offset: u64, record: &lent::Record, list: &[u16], room: usize) -> ([u64; 7], lent::Record, [u8; 28]) {
    let (mut out, board, entries) = ([0xA5; 28], Board::of(record), list.len());
    // SAFETY: each pointer and length are those of one slice or of its front, and the one that is written is borrowed mutably.
    let s = unsafe { menkhodur_game_step(text.as_ptr(), text.len(), offset, board, list.as_ptr(), entries, out.as_mut_ptr(), room) };
    ([s.number, s.offset, s.found, s.start, s.length, s.played, s.key_length], s.board.record(), out)
}

#[test]
fn a_step_that_plays_nothing_hands_its_record_back_and_writes_nothing() {
    let mut knight = lent::Record { half_moves: 258, full_moves: 772, ..empty() };
    knight.numbers[1] = 2;
    let (text, list) = (&b"1. (Na3) Nc3 (Na3) )"[..], [1_153]);
    let mut after = lent::Record { half_moves: 259, ..knight };
    (after.numbers[1], after.numbers[18], after.numbers[64]) = (0, 2, 1);
    assert_eq!(step(text, 0, &knight, &list, 28), ([0, 0, 1, 9, 3, 1_153, 27], after, *b"8/8/8/8/8/2N5/8/8 b - - 0 1\xA5"));
    let refused = |number: u64, needed: u64| [number, 9, 1, 9, 3, 0, needed];
    assert_eq!(step(text, 0, &knight, &list, 26), (refused(7, 27), knight, [0xA5; 28]));
    assert_eq!(step(text, 0, &knight, &[], 0), (refused(4, 0), knight, [0xA5; 28]));
    assert_eq!(step(text, 0, &knight, &[28_672], 0), (refused(6, 0), knight, [0xA5; 28]));
    assert_eq!(step(text, 0, &bad_record(), &[28_672], 0), (refused(5, 0), bad_record(), [0xA5; 28]));
    // The walk is asked first, and says nothing of a move: an offset past the text, a stray bracket, none left, a ninth level, one left open.
    let ended = |number: u64, offset: u64| ([number, offset, 0, 0, 0, 0, 0], bad_record(), [0xA5; 28]);
    assert_eq!(step(text, 21, &bad_record(), &[28_672], 0), ended(23, 21));
    assert_eq!(step(text, 12, &bad_record(), &[28_672], 0), ended(23, 19));
    assert_eq!(step(b"Nc3 (Na3) 1-0 Na3", 3, &bad_record(), &[28_672], 0), ended(0, 0));
    assert_eq!(step(b"((((((((( Nc3", 0, &bad_record(), &[28_672], 0), ended(22, 8));
    assert_eq!(step(b" (Na3 {)}", 0, &bad_record(), &[28_672], 0), ended(21, 1));
}

#[test]
fn a_text_that_is_played_alone_has_its_length_as_its_place() {
    let mut knight = empty();
    knight.numbers[1] = 2;
    let play = |text: &[u8], record: &lent::Record, list: &[u16], room: usize| {
        let (mut out, board, entries) = ([0xA5; 28], Board::of(record), list.len());
        // SAFETY: each pointer and length are those of one slice or of its front, and the one that is written is borrowed mutably.
        let s = unsafe { menkhodur_play(text.as_ptr(), text.len(), board, list.as_ptr(), entries, out.as_mut_ptr(), room) };
        ([s.number, s.offset, s.found, s.start, s.length, s.played, s.key_length], s.board.record(), out)
    };
    let mut after = lent::Record { half_moves: 1, ..knight };
    (after.numbers[1], after.numbers[18], after.numbers[64]) = (0, 2, 1);
    assert_eq!(play(b"Nc3", &knight, &[1_153], 27), ([0, 0, 1, 0, 3, 1_153, 27], after, *b"8/8/8/8/8/2N5/8/8 b - - 0 1\xA5"));
    assert_eq!(play(b"Nc3", &knight, &[1_153], 0), ([7, 0, 1, 0, 3, 0, 27], knight, [0xA5; 28]));
    // No move text is cut out of a longer one, and an empty one is a text too.
    assert_eq!(play(b" Nc3", &knight, &[1_153], 0), ([4, 0, 1, 0, 4, 0, 0], knight, [0xA5; 28]));
    assert_eq!(play(b"", &knight, &[28_672], 0), ([6, 0, 1, 0, 0, 0, 0], knight, [0xA5; 28]));
    assert_eq!(play(b"Nc3", &bad_record(), &[28_672], 0), ([5, 0, 1, 0, 3, 0, 0], bad_record(), [0xA5; 28]));
}

// The five numbers of a judgement's answer.
fn judge(record: &lent::Record, in_check: u8, list: &[u16]) -> [u64; 5] {
    // SAFETY: pointer and length are those of one slice, and the function only reads.
    let j = unsafe { menkhodur_list_judged(Board::of(record), in_check, list.as_ptr(), list.len()) };
    [j.number, j.in_check, j.entries, j.wrong, j.named]
}

// A white king on a1 and a black rook on c3: the king may go to b1, a2 and b2. Black's king on a1 and a white rook on a3: b1 and b2, in check.
#[test]
fn a_refused_judgement_is_all_zeros() {
    let mut white = empty();
    (white.numbers[0], white.numbers[18]) = (6, 10);
    assert_eq!(judge(&white, 0, &[512, 64, 576]), [0, 0, 3, 0, 0]);
    let mut black = empty();
    (black.numbers[0], black.numbers[16], black.numbers[64]) = (12, 4, 1);
    assert_eq!(judge(&black, 1, &[576, 64]), [0, 1, 2, 0, 0]);
    assert_eq!(judge(&black, 0, &[576, 64]), [0, 1, 2, 4, 0]);
    assert_eq!(judge(&black, 0, &[576]), [0, 1, 2, 3, 64]);
    assert_eq!(judge(&black, 0, &[576, 576]), [0, 1, 2, 2, 576]);
    assert_eq!(judge(&black, 0, &[576, 576, 28_671]), [0, 1, 2, 1, 28_671]);
    assert_eq!(judge(&black, 2, &[28_672]), [5, 0, 0, 0, 0]);
    assert_eq!(judge(&bad_record(), 0, &[28_672]), [5, 0, 0, 0, 0]);
    assert_eq!(judge(&zeros(), 0, &[28_672]), [5, 0, 0, 0, 0]);
    assert_eq!((judge(&black, 0, &[28_672]), judge(&black, 0, &[576; 256])), ([6, 0, 0, 0, 0], [6, 0, 0, 0, 0]));
}

// A queen on each square of the edge. The 24 outside the corners have six squares straight ahead and five on diagonals, those in the
// corners have six on a diagonal: 288 moves.
fn queens() -> lent::Record {
    let mut record = empty();
    for square in (0..64).filter(|square| [square % 8, square / 8].iter().any(|line| [0, 7].contains(line))) {
        record.numbers[square] = 5;
    }
    record
}

#[test]
fn a_refused_list_tells_the_number_of_moves_needed_or_nothing() {
    let mut white = empty();
    (white.numbers[0], white.numbers[18]) = (6, 10);
    let mut room = [0xA5A5; 4];
    let mut list = |record: &lent::Record, length: usize| {
        // SAFETY: pointer and length are those of the front of one slice, borrowed mutably.
        let answer = unsafe { menkhodur_legal_list(Board::of(record), room.as_mut_ptr(), length) };
        (answer.number, answer.value, room)
    };
    for length in 0..3 {
        assert_eq!(list(&white, length), (7, 3, [0xA5A5; 4]));
    }
    assert_eq!(list(&bad_record(), 0), (5, 0, [0xA5A5; 4]));
    assert_eq!(list(&queens(), 0), (6, 0, [0xA5A5; 4]));
    assert_eq!(list(&white, 4), (0, 3, [64, 512, 576, 0xA5A5]));
    assert_eq!(judge(&queens(), 0, &[]), [6, 0, 0, 0, 0]);
}

#[test]
fn a_refused_value_is_zero_but_for_the_length_needed() {
    let mut room = [0; 24];
    let mut write_fen = |record: &lent::Record| {
        // SAFETY: pointer and length are those of one slice, borrowed mutably.
        let answer = unsafe { menkhodur_fen_write(Board::of(record), room.as_mut_ptr(), room.len()) };
        (answer.number, answer.value)
    };
    assert_eq!(write_fen(&empty()), (7, 25));
    assert_eq!(write_fen(&bad_record()), (5, 0));
    let mut write_full = |record: &lent::Record| {
        // SAFETY: pointer and length are those of one slice, borrowed mutably.
        let answer = unsafe { menkhodur_fen_write_full(Board::of(record), room.as_mut_ptr(), room.len()) };
        (answer.number, answer.value)
    };
    assert_eq!(write_full(&lent::Record { half_moves: 10, full_moves: 100, ..empty() }), (7, 28));
    assert_eq!((write_full(&bad_record()), write_full(&zeros())), ((5, 0), (5, 0)));
    let list = [1153];
    for (number, want) in [(1153, 8), (70_000, 11)] {
        // SAFETY: each pointer and length are those of one slice; the room of none is not written.
        let answer = unsafe { menkhodur_san_name(Board::of(&empty()), list.as_ptr(), 1, number, [].as_mut_ptr(), 0) };
        assert_eq!((answer.number, answer.value), (want, 0));
        // SAFETY: as above.
        let answer = unsafe { menkhodur_san_name_standard(Board::of(&empty()), list.as_ptr(), 1, number, [].as_mut_ptr(), 0) };
        assert_eq!((answer.number, answer.value), (want, 0));
    }
    // SAFETY: each pointer and length are those of one slice, and the function only reads.
    let answer = unsafe { menkhodur_san_read(Board::of(&empty()), list.as_ptr(), 1, b"Nc3".as_ptr(), 3) };
    assert_eq!((answer.number, answer.value), (4, 0));
    // SAFETY: as above.
    let answer = unsafe { menkhodur_san_read_standard(Board::of(&empty()), list.as_ptr(), 1, b"Nc3".as_ptr(), 3) };
    assert_eq!((answer.number, answer.value), (4, 0));
    let check = menkhodur_in_check(Board::of(&bad_record()));
    assert_eq!((check.number, check.value), (5, 0));
    let squares = [menkhodur_make_square(8, 0), menkhodur_rights_add(4, 0), menkhodur_rights_remove(0, 4), menkhodur_square_rights(2, 0)];
    assert!(squares.iter().all(|answer| (answer.number, answer.value) == (5, 0)));
}

type RollReader = unsafe extern "C" fn(*const u8, usize, *mut u8, usize) -> Roll;

// A roll of 68 ones, which are a start with a pawn on each square, of `counters` and of an offer; then the same, spoilt.
fn hands_out_nothing(reader: RollReader, counters: &[u8], start: lent::Record) {
    let mut actions = vec![0xA5; ACTIONS_PART];
    let mut read = |roll: &[u8], room: usize| {
        // SAFETY: each pointer and length are those of one slice or of its front, and the one that is written is borrowed mutably.
        let rolled = unsafe { reader(roll.as_ptr(), roll.len(), actions[..room].as_mut_ptr(), room) };
        (rolled.number, rolled.actions, rolled.board.record())
    };
    let roll = |side: u8, rest: &[u8]| [&[1; 64], &[side, 1, 1, 1][..], counters, rest].concat();
    let none = |number: u64| (number, 0, zeros());
    assert_eq!(read(&roll(1, &[1, 5]), ACTIONS_PART - 1), none(16));
    for wrong in [&[1][..], &[1, 5, 0], &[1, 7]] {
        assert_eq!(read(&roll(1, wrong), ACTIONS_PART), none(17));
    }
    assert_eq!(read(&roll(2, &[1, 7]), ACTIONS_PART), none(5));
    // A count of 8,193.
    assert_eq!(read(&roll(1, &[0x81, 0x40]), ACTIONS_PART), none(13));
    assert_eq!(read(&roll(1, &[1, 5]), ACTIONS_PART), (0, 1, start));
    assert_eq!(actions[..5], [2, 1, 0, 0, 0xA5]);
}

#[test]
fn a_refused_roll_hands_out_nothing_old_or_new() {
    let pawns = lent::Record::from([1; 68]);
    hands_out_nothing(menkhodur_roll_read_old, &[], pawns);
    // 258 is 2 + 128 * 2, and 772 is 4 + 128 * 6.
    let counted = lent::Record { half_moves: 258, full_moves: 772, ..pawns };
    hands_out_nothing(menkhodur_roll_read, &[128 + 2, 2, 128 + 4, 6], counted);
}

#[test]
fn a_refused_roll_has_no_length_but_the_one_needed() {
    let actions = vec![0; ACTIONS_PART];
    let write = |part: &[u8], record: &lent::Record, count: u64| {
        // SAFETY: each pointer and length are those of one slice; the room of none is not written.
        let answer = unsafe { menkhodur_roll_write(Board::of(record), part.as_ptr(), part.len(), count, [].as_mut_ptr(), 0) };
        (answer.number, answer.value)
    };
    assert_eq!(write(&actions, &empty(), 0), (7, 71));
    assert_eq!(write(&actions, &lent::Record { half_moves: 128, full_moves: 128, ..empty() }, 0), (7, 73));
    assert_eq!(write(&actions, &empty(), 1), (17, 0));
    assert_eq!(write(&actions, &empty(), 1 << 32), (13, 0));
    assert_eq!(write(&actions, &bad_record(), 1 << 32), (5, 0));
    assert_eq!(write(&actions, &zeros(), 1 << 32), (5, 0));
    assert_eq!(write(&actions[1..], &bad_record(), 1 << 32), (16, 0));
}

#[test]
fn refused_rolls_tell_no_length_of_what_differs() {
    let differ = |first: &[u8], second: &[u8], out: &mut [u8]| {
        let (one, other, room) = (first.as_ptr(), second.as_ptr(), out.len());
        // SAFETY: each pointer and length are those of one slice, and the one that is written is borrowed mutably.
        let answer = unsafe { menkhodur_roll_differences(one, first.len(), other, second.len(), out.as_mut_ptr(), room) };
        (answer.number, answer.value)
    };
    let (mut plain, mut room) = ([0; 71], [0xA5; 8]);
    plain[69] = 1;
    let mut pawn = plain;
    pawn[28] = 1;
    assert_eq!(differ(&[], &[13], &mut room), (17, 0));
    assert_eq!(differ(&[13], &[], &mut room), (5, 0));
    assert_eq!(differ(&plain, &[13], &mut room), (5, 0));
    assert_eq!(differ(&pawn, &plain, &mut room[..6]), (7, 7));
    assert_eq!(room, [0xA5; 8]);
    assert_eq!(differ(&pawn, &plain, &mut room), (0, 7));
    assert_eq!(&room, b"28 1 0\n\xA5");
    assert_eq!(differ(&pawn, &pawn, &mut []), (0, 0));
}

#[test]
fn a_start_gives_no_counts_and_leaves_the_actions() {
    let actions = vec![0xA5; ACTIONS_PART];
    let mut positions = vec![0xA5; POSITIONS_PART];
    assert_eq!(start(&actions[1..], &mut positions, &empty(), 0, &[]), (16, 0, 0));
    assert_eq!(start(&actions, &mut positions[1..], &empty(), 0, &[]), (16, 0, 0));
    assert_eq!(start(&actions, &mut positions, &bad_record(), 0, &[]), (5, 0, 0));
    assert_eq!(start(&actions, &mut positions, &zeros(), 0, &[]), (5, 0, 0));
    assert_eq!(start(&actions, &mut positions, &empty(), 2, &[]), (5, 0, 0));
    assert_eq!(start(&actions, &mut positions, &empty(), 0, &[28_672]), (6, 0, 0));
    assert!(positions.iter().all(|&byte| byte == 0xA5));
    assert_eq!(start(&actions, &mut positions, &empty(), 0, &[1153]), (0, 0, 0));
    assert!(actions.iter().all(|&byte| byte == 0xA5));
    assert!(positions[POSITION_BYTES..].iter().all(|&byte| byte == 0xA5));
}

#[test]
fn a_refused_ruling_is_all_zeros() {
    // A log with a move in it, whose ruling has something to lose.
    let (mut actions, mut positions) = (vec![0; ACTIONS_PART], vec![0; POSITIONS_PART]);
    assert_eq!(start(&actions, &mut positions, &empty(), 0, &[1153]), (0, 0, 0));
    actions[..4].copy_from_slice(&[1, 0, 129, 4]);
    // The record after the only move of an empty board: the other side is to move, at a clock of 1 and in move 1.
    let next = &mut positions[POSITION_BYTES..];
    (next[64], next[68], next[70]) = (1, 1, 1);
    let rule = |actions: &[u8], positions: &[u8], n: u64, m: u64| {
        // SAFETY: each pointer and length are those of one slice, and the function only reads.
        let r = unsafe { menkhodur_game_ruling(actions.as_ptr(), actions.len(), positions.as_ptr(), positions.len(), n, m) };
        [r.number, r.count, r.laws_count, r.equals, r.first, r.second, r.claim, r.laws_claim]
    };
    assert_eq!(rule(&actions, &positions, 1, 1), [0, 1, 1, 0, 0, 0, 0, 0]);
    assert_eq!(rule(&actions[1..], &positions, 1, 1), [16, 0, 0, 0, 0, 0, 0, 0]);
    assert_eq!(rule(&actions, &positions[1..], 70_000, 1), [16, 0, 0, 0, 0, 0, 0, 0]);
    for (n, m) in [(1, 0), (0, 1), (1, 70_000), ((1 << 32) + 1, 1), (u64::MAX, u64::MAX)] {
        assert_eq!(rule(&actions, &positions, n, m), [9, 0, 0, 0, 0, 0, 0, 0]);
    }
}

#[test]
fn counts_of_a_refused_call_come_back_as_given() {
    let mut actions = vec![0; ACTIONS_PART];
    let mut positions = vec![0; POSITIONS_PART];
    assert_eq!(start(&actions, &mut positions, &empty(), 0, &[1153]), (0, 0, 0));
    let mut offer = |n: u64, m: u64, colour: u8| {
        let (part, room) = (actions.as_mut_ptr(), actions.len());
        // SAFETY: each pointer and length are those of one slice, and the one that is written is borrowed mutably.
        counts(unsafe { menkhodur_game_offer_draw(part, room, positions.as_ptr(), positions.len(), n, m, colour) })
    };
    for (n, m) in [(70_000, 0), (0, 70_000), (1 << 16, 0), (0, 1 << 16), (1 << 32, 1 << 32), (u64::MAX, u64::MAX), (1, 0)] {
        assert_eq!(offer(n, m, 0), (9, n, m));
    }
    assert_eq!(offer(0, 0, 2), (5, 0, 0));
    assert_eq!(offer(0, 0, 1), (0, 1, 0));
    assert_eq!(offer(1, 0, 0), (0, 2, 0));
}
