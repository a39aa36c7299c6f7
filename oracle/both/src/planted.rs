//! The archive's functions with a fault planted in one of them, to see that the comparison finds it. Only built with the
//! feature `planted`, in place of `abi`; the variable PLANTED names the fault. Each is rare, so that finding it means that
//! the inputs reach far, not that every answer is wrong.

#[path = "abi.rs"]
mod real;

pub use real::*;
use std::ops::{Deref, DerefMut};
use std::sync::OnceLock;

fn planted(name: &str) -> bool {
    static NAME: OnceLock<String> = OnceLock::new();
    NAME.get_or_init(|| std::env::var("PLANTED").unwrap_or_default()) == name
}

/// The fourth token's rank 8 is taken for none. Of refused texts: the last bad byte of a placement is told, from 40 bytes on;
/// an empty side is told before a bad placement; the length of three tokens is counted in characters; the side starts one
/// byte later behind a placement that ends in a slash. A fifth token of 7 is taken for the clock where a seventh stands behind it.
pub fn fen_read(text: &[u8]) -> Fen {
    let mut fen = real::fen_read(text);
    if planted("fen-read-counter") && fen.number == 0 && text.ends_with(b" 7 9 x") {
        fen.board.half_moves = 7;
    }
    if planted("fen-read") && text.ends_with(b"h8") {
        fen.board.numbers[67] = 0;
    }
    let first = text.split(|byte| *byte == b' ').next().unwrap_or_default();
    if planted("fen-read-first") && fen.number == 19 && first.len() >= 40 {
        let bad = |byte: &u8| !b"/12345678PNBRQKpnbrqk".contains(byte);
        fen.offset = first.iter().rposition(bad).map_or(0, |at| at as u64);
    }
    if planted("fen-read-order") && fen.number == 19 && text[first.len()..].starts_with(b"  ") {
        (fen.number, fen.offset) = (20, first.len() as u64 + 1);
    }
    if planted("fen-read-length") && fen.number == 18 && text.iter().filter(|byte| **byte == b' ').count() == 2 {
        fen.offset = String::from_utf8_lossy(text).chars().count() as u64;
    }
    if planted("fen-read-side") && fen.number == 20 && first.ends_with(b"/") {
        fen.offset += 1;
    }
    fen
}

/// Of the full reader: 25 is told before 20; the sixth token is tested before the fifth; `10000` is a clock; `0000` is a move number; a sixth token
/// that is missing is told where the fifth starts; a seventh token is refused.
pub fn fen_read_full(text: &[u8]) -> Fen {
    let mut fen = real::fen_read_full(text);
    let tokens: Vec<&[u8]> = text.split(|byte| *byte == b' ').collect();
    let start = |nth: usize| tokens.iter().take(nth).map(|token| token.len() as u64 + 1).sum::<u64>();
    let is_counter = |token: &[u8]| (1..=4).contains(&token.len()) && token.iter().all(u8::is_ascii_digit);
    let bad = |nth: usize| tokens.get(nth).is_some_and(|token| !is_counter(token));
    let changed = |nth: usize, token: &'static [u8]| {
        let mut other = tokens.clone();
        other[nth] = token;
        real::fen_read_full(&other.join(&b' '))
    };
    if planted("full-order") && fen.number == 20 && bad(4) {
        (fen.number, fen.offset) = (25, start(4));
    }
    if planted("full-sixth") && (fen.number, fen.offset) == (25, start(4)) && bad(4) && bad(5) {
        fen.offset = start(5);
    }
    if planted("full-ten-thousand") && fen.number == 25 && tokens.get(4) == Some(&&b"10000"[..]) {
        fen = changed(4, b"0");
        fen.board.half_moves = if fen.number == 0 { 10_000 } else { 0 };
    }
    if planted("full-zero") && fen.number == 25 && tokens.get(5) == Some(&&b"0000"[..]) {
        fen = changed(5, b"1");
        fen.board.full_moves = 0;
    }
    if planted("full-missing") && fen.number == 25 && tokens.len() == 5 && !bad(4) {
        fen.offset = start(4);
    }
    if planted("full-seventh") && fen.number == 0 && tokens.len() > 6 {
        fen = Fen { number: 25, offset: start(6), board: Record { full_moves: 0, ..Record::of([0; NUMBERS]) } };
    }
    fen
}

/// The full writer leaves out the last digit of the move number 1,000.
pub fn fen_write_full(b: Record, out: &mut [u8]) -> Answer {
    let mut answer = real::fen_write_full(b, out);
    if planted("full-write") && b.full_moves == 1_000 && matches!(answer.number, 0 | 7) {
        answer.value -= 1;
    }
    answer
}

/// Of PGN move text: `*` in brackets ends the walk; a bracket in a comment counts as left open; the ninth level is not told where
/// a move stands before it; the outermost open bracket is told, not the innermost.
pub fn pgn_check(text: &[u8]) -> PgnCount {
    let count = real::pgn_check(text);
    let at = |byte: u8| text.iter().position(|b| *b == byte).unwrap_or(0);
    if planted("pgn-result") && count.number == 23 && text[count.offset as usize] == b'*' {
        return PgnCount { number: 0, offset: 0, moves: 0 };
    }
    if planted("pgn-comment") && count.number == 0 && text.windows(2).any(|two| two == b"{(") && count.moves == 1 {
        return PgnCount { number: 21, offset: at(b'{') as u64 + 1, moves: 0 };
    }
    if planted("pgn-ninth") && count.number == 22 && text.contains(&b'N') {
        return PgnCount { number: 21, ..count };
    }
    if planted("pgn-outermost") && count.number == 21 && text[count.offset as usize] == b'(' {
        return PgnCount { offset: at(b'(') as u64, ..count };
    }
    count
}

/// An offset past the text is told before a level that is too deep; a move ends before its `=`; at level 8 a move is told at 7. Of the brackets before a
/// move: an empty variation is told; closed ones are set off against opened ones; of three opened two are told; the place is left where no move comes.
pub fn pgn_next(text: &[u8], offset: u64, level: u64) -> PgnMove {
    let mut next = real::pgn_next(text, offset, level);
    if planted("pgn-place") && next.number == 22 && offset > text.len() as u64 {
        next.number = 23;
    }
    if planted("pgn-short") && next.found == 1 {
        let held = &text[next.start as usize..(next.start + next.length) as usize];
        next.length = held.iter().position(|b| *b == b'=').unwrap_or(held.len()) as u64;
    }
    if planted("pgn-level") && next.level == 8 {
        next.level = 7;
    }
    if planted("pgn-empty") && next.found == 1 && text[offset as usize..next.start as usize].windows(2).any(|two| two == b"()") {
        (next.closed, next.opened) = (next.closed + 1, next.opened + 1);
    }
    if planted("pgn-crossed") && next.closed == 1 && next.opened == 1 {
        (next.closed, next.opened) = (0, 0);
    }
    if planted("pgn-opened") && next.opened == 3 {
        next.opened = 2;
    }
    if planted("pgn-left") && next.number == 0 && next.found == 0 {
        next.closed = level;
    }
    next
}

/// Of a step, which move is played: one of a third level; the next one behind a refused move that ends in `!`, behind castling to the long side, or
/// behind a result. The others are `wrong_answer`'s.
pub fn game_step(text: &[u8], offset: u64, b: Record, list: &[u16], out: &mut [u8]) -> GameStep {
    let mut step = real::game_step(text, offset, b, list, out);
    let part = |start: u64, length: u64| &text[start as usize..(start + length) as usize];
    let (said, first) = (part(step.start, step.length), real::pgn_next(text, offset, 0));
    let behind = step.start + step.length;
    let over = step.number == 0 && step.found == 0;
    if planted("played-variation") && first.level == 3 {
        step = GameStep { start: first.start, ..real::play(part(first.start, first.length), b, list, out) };
    }
    if planted("played-on") && step.number == 4 && said.ends_with(b"!") || planted("played-skip") && step.number == 0 && said == b"O-O-O" {
        step = real::game_step(text, behind, b, list, out);
    }
    if planted("played-result") && over && text.ends_with(b"1-0 e4") {
        step = real::game_step(text, text.len() as u64 - 2, b, list, out);
    }
    wrong_answer(step, text, offset, b, list, out)
}

/// What a step tells: the key of the record before is written behind a promotion; a byte behind the key of a record with a file is cleared; a bracket
/// that is left open has the place's offset; 7 has no offset, or hands the record after the move out; 5 is told before 23; where no move is left the
/// text's end is told.
fn wrong_answer(mut step: GameStep, text: &[u8], offset: u64, b: Record, list: &[u16], out: &mut [u8]) -> GameStep {
    let plays = step.number == 0 && step.found == 1;
    if planted("played-before") && plays && step.played >= 4_096 {
        real::fen_write(b, out);
    }
    if planted("played-behind") && plays && step.board.numbers[67] != 0 && out.len() > step.key as usize {
        out[step.key as usize] = 0;
    }
    if planted("played-place") && step.number == 21 {
        step.offset = offset;
    }
    if planted("played-seven") && step.number == 7 {
        step.offset = 0;
    }
    if planted("played-back") && step.number == 7 {
        let said = &text[step.start as usize..(step.start + step.length) as usize];
        step.board = real::board_after(b, real::san_read_standard(b, list, said).value).board;
    }
    if planted("played-order") && step.number == 23 && real::board_settled(b).number == 5 {
        (step.number, step.offset) = (5, 0);
    }
    if planted("played-end") && step.number == 0 && step.found == 0 {
        step.start = text.len() as u64;
    }
    step
}

/// Of a move text alone: a blank before it is passed over; the move number 255 does not go on; 7 is told before 4 where there is no room; an en passant
/// capture leaves the pawn.
pub fn play(text: &[u8], b: Record, list: &[u16], out: &mut [u8]) -> GameStep {
    let mut step = real::play(text, b, list, out);
    if let (true, 4, [b'\t' | b' ', rest @ ..]) = (planted("played-blank"), step.number, text) {
        step = real::play(rest, b, list, out);
    }
    if planted("played-number") && step.number == 0 && b.full_moves == 255 {
        step.board.full_moves = 255;
    }
    if planted("played-room") && step.number == 4 && out.is_empty() {
        (step.number, step.key) = (7, 25);
    }
    let (from, to) = (step.played as usize % 64, step.played as usize / 64 % 64);
    if planted("played-passing") && step.number == 0 && b.numbers[from] % 6 == 1 && from % 8 != to % 8 && b.numbers[to] == 0 {
        let taken = from / 8 * 8 + to % 8;
        step.board.numbers[taken] = b.numbers[taken];
    }
    step
}

/// One byte behind the text is cleared; or a move number of one digit is written.
pub fn fen_write(b: Record, out: &mut [u8]) -> Answer {
    let answer = real::fen_write(b, out);
    if planted("fen-write-counter") && answer.number == 0 && (2..=9).contains(&b.full_moves) {
        out[answer.value as usize - 1] = b'0' + b.full_moves as u8;
    }
    if planted("fen-write") && answer.number == 0 && b.numbers[67] == 8 {
        if let Some(byte) = out.get_mut(answer.value as usize) {
            *byte = 0;
        }
    }
    answer
}

/// An empty line behind the last newline is counted, if an empty one stands before it too; the offset of a bad side is from the
/// page's start; a room of records one line short has the lines that fit.
pub fn fen_page(text: &[u8], records: &mut [u8], numbers: &mut [u64]) -> Answer {
    let mut answer = real::fen_page(text, records, numbers);
    let lines = answer.value as usize;
    if planted("page-last") && text.ends_with(b"\n\n") {
        answer.value += 1;
    }
    if planted("page-offset") && answer.number == 0 {
        let mut start = 0;
        for (told, line) in numbers.chunks_exact_mut(2).zip(text.split(|byte| *byte == b'\n')).take(lines) {
            told[1] += if told[0] == 20 { start } else { 0 };
            start += line.len() as u64 + 1;
        }
    }
    if planted("page-room") && answer.number == 7 && records.len() + NUMBERS == NUMBERS * lines && numbers.len() >= 2 * lines {
        let mut all = vec![0; NUMBERS * lines];
        real::fen_page(text, &mut all, &mut vec![0; 2 * lines]);
        records.copy_from_slice(&all[..records.len()]);
    }
    answer
}

/// Of a report: the zeros of a refused line are a record that ` w - -` repeats; three equal lines are three repeats; the file of two records that differ
/// in nothing else is not compared; a record is looked for among the seven lines before it; black's queens on h8 are not counted; men of a kind are counted
/// up to 65,535; 4,097 lines are taken; 7 is told before 13; with 13 the lines are told, if the last is not ended; with 7 the lines are told as refused
/// too, if there are three; a short room of numbers lets the records be written; a number behind the last line's is cleared, behind an empty line.
pub fn fen_report(text: &[u8], records: &mut [u8], numbers: &mut [u64]) -> Report {
    let mut report = real::fen_report(text, records, numbers);
    if report.number != 0 {
        return refused_report(report, text, records, numbers);
    }
    let lines = report.lines as usize;
    let record = |at: usize| &records[NUMBERS * at..NUMBERS * (at + 1)];
    let taken = |at: usize| numbers[2 * at] == 0;
    // How many accepted lines are like one of those that are looked at.
    let repeats = |looked: &dyn Fn(usize) -> std::ops::Range<usize>, alike: &dyn Fn(usize, usize) -> bool| {
        (0..lines).filter(|at| taken(*at) && looked(*at).any(|before| alike(before, *at))).count() as u64
    };
    let same = |before: usize, at: usize| taken(before) && record(before) == record(at);
    if planted("report-refused") {
        report.repeated = repeats(&|at| 0..at, &|before, at| record(before) == record(at));
    }
    if planted("report-first") && report.repeated == 2 && report.accepted == 3 {
        report.repeated = 3;
    }
    if planted("report-file") {
        report.repeated = repeats(&|at| 0..at, &|before, at| taken(before) && record(before)[..NUMBERS - 1] == record(at)[..NUMBERS - 1]);
    }
    if planted("report-near") {
        report.repeated = repeats(&|at| at.saturating_sub(7)..at, &same);
    }
    if planted("report-h8") {
        report.men[10] -= (0..lines).filter(|at| record(*at)[63] == 11).count() as u64;
    }
    if planted("report-cut") {
        report.men = report.men.map(|men| men.min(65_535));
    }
    if planted("report-behind") && numbers.len() > 2 * lines && text.ends_with(b"\n\n") {
        numbers[2 * lines] = 0;
    }
    report
}

/// The faults of a report that is refused.
fn refused_report(mut report: Report, text: &[u8], records: &mut [u8], numbers: &mut [u64]) -> Report {
    let lines = real::fen_page(text, &mut [], &mut []).value;
    let (bytes, told) = (NUMBERS * lines as usize, 2 * lines as usize);
    if planted("report-limit") && lines == REPORT_LINES as u64 + 1 && real::fen_page(text, records, numbers).number == 0 {
        let accepted = numbers[..told].chunks_exact(2).filter(|told| told[0] == 0).count() as u64;
        return Report { number: 0, lines, accepted, refused: lines - accepted, ..report };
    }
    if planted("report-order") && report.number == 13 && (records.len() < bytes || numbers.len() < told) {
        (report.number, report.lines) = (7, lines);
    }
    if planted("report-lines") && report.number == 13 && !text.ends_with(b"\n") {
        report.lines = lines;
    }
    if planted("report-seven") && report.number == 7 && lines == 3 {
        report.refused = lines;
    }
    if planted("report-room") && report.number == 7 && records.len() >= bytes {
        real::fen_page(text, records, &mut vec![0; told]);
    }
    report
}

/// Six bytes that end in a promotion letter promote. Of refused texts: the rank byte is told where both bytes of the second
/// pair are bad; a second pair of which one byte is there is told at its start; a fifth byte that is a space is told at the
/// text's end.
pub fn move_read(text: &[u8]) -> Placed {
    let mut answer = real::move_read(text);
    if planted("moves") && answer.number == 0 && text.len() == 6 && text[5] == b'q' {
        answer.value += 4096 * 5;
    }
    if planted("moves-rank") && (answer.number, answer.offset) == (2, 2) && !(b'1'..=b'8').contains(&text[3]) {
        answer.offset = 3;
    }
    if planted("moves-start") && (answer.number, answer.offset) == (3, 3) {
        answer.offset = 2;
    }
    if planted("moves-fifth") && (answer.number, answer.offset) == (3, 4) && text[4] == b' ' {
        answer.offset = 5;
    }
    answer
}

/// A second fit is let through if the text says `x`; or if the first entry fits too; a list of 255 entries is one too many.
pub fn san_read(b: Record, list: &[u16], text: &[u8]) -> Answer {
    let answer = real::san_read(b, list, text);
    if (planted("san-legal") || planted("san-any")) && answer.number == 4 && text.contains(&b'x') {
        let alone = |entry: &&u16| real::san_read(b, &[**entry], text).number == 0;
        if let Some(entry) = list.iter().find(alone) {
            return Answer { number: 0, value: *entry as u64 };
        }
    }
    if planted("lists-first") && answer.number == 4 && list.len() > 2 {
        let alone = real::san_read(b, &list[..1], text);
        return if alone.number == 0 { alone } else { answer };
    }
    if planted("lists-full") && answer.number != 5 && list.len() == 255 {
        return Answer { number: 6, value: 0 };
    }
    answer
}

/// The length needed is one too many for names of five bytes.
pub fn san_name(b: Record, list: &[u16], number: u64, out: &mut [u8]) -> Answer {
    let mut answer = real::san_name(b, list, number, out);
    if planted("names") && answer.number == 7 && answer.value == 5 {
        answer.value += 1;
    }
    answer
}

/// A promotion without `=` is taken; a pawn's `x` without its file is taken; a capture is refused on a list of seven entries; a move number of 0 is
/// let pass.
pub fn san_read_standard(b: Record, list: &[u16], text: &[u8]) -> Answer {
    let answer = real::san_read_standard(b, list, text);
    if planted("san-standard-counter") && answer.number == 5 && b.full_moves == 0 {
        return real::san_read_standard(Record { full_moves: 1, ..b }, list, text);
    }
    if planted("san-standard-equals") && answer.number == 4 {
        if let [front @ .., rank @ (b'1' | b'8'), letter] = text {
            return real::san_read_standard(b, list, &[front, &[*rank, b'=', *letter]].concat());
        }
    }
    if planted("san-standard-file") && answer.number == 4 && text.starts_with(b"x") {
        let with_file = |file: u8| real::san_read_standard(b, list, &[&[file], text].concat());
        return (b'a'..=b'h').map(with_file).find(|read| read.number == 0).unwrap_or(answer);
    }
    if planted("lists-seven") && answer.number == 0 && list.len() == 7 && text.contains(&b'x') {
        return Answer { number: 4, value: 0 };
    }
    answer
}

/// The length needed is one too many for names of eight bytes; the last of three entries or more has no name where the room is too short for five bytes.
pub fn san_name_standard(b: Record, list: &[u16], number: u64, out: &mut [u8]) -> Answer {
    let mut answer = real::san_name_standard(b, list, number, out);
    if planted("san-standard-name") && answer.number == 7 && answer.value == 8 {
        answer.value += 1;
    }
    if planted("lists-last") && answer.number == 7 && answer.value > 4 && list.len() > 2 && list.ends_with(&[number as u16]) {
        answer = Answer { number: 8, value: 0 };
    }
    answer
}

/// A black king on h8 is set down as a queen.
pub fn piece(b: Record, square: u8, code: u8) -> Stepped {
    let code = if planted("steps") && (square, code) == (63, 12) { 11 } else { code };
    real::piece(b, square, code)
}

/// The last clock is lost when a square is cleared.
pub fn clear_square(b: Record, square: u8) -> Stepped {
    let mut stepped = real::clear_square(b, square);
    if planted("steps-kept") && stepped.number == 0 && b.half_moves == LAST_COUNT {
        stepped.board.half_moves = 0;
    }
    stepped
}

/// A clock of 10,000 is taken.
pub fn half_moves(b: Record, half_moves: u64) -> Stepped {
    let stepped = real::half_moves(b, half_moves);
    if planted("steps-ten-thousand") && half_moves == 10_000 && b.full_moves == 1 && stepped.number == 5 {
        return Stepped { number: 0, board: Record { half_moves: 10_000, ..b } };
    }
    stepped
}

/// A move number over 65,535 is cut.
pub fn full_moves(b: Record, full_moves: u64) -> Stepped {
    real::full_moves(b, if planted("steps-cut") { full_moves % 65_536 } else { full_moves })
}

/// The rook stays in its corner in castling to the queen side; a man who is no pawn is not promoted; a double step to file h looks round the
/// edge; the right of a rook that is taken stays; a pawn takes in passing only by the en passant file; an empty source leaves the destination; a
/// king set down in the corner goes before the man who stood there; a move over 65,535 is cut; 6 comes before 5; a refused record loses its file.
pub fn board_after(b: Record, number: u64) -> Stepped {
    let mut after = real::board_after(b, number);
    let (from, to, promotion) = (number as usize % 64, number as usize / 64 % 64, number / 4_096);
    let man = b.numbers[from];
    if after.number != 0 {
        return refused_after(b, number, after);
    }
    if planted("after-corner") && man % 6 == 0 && man > 0 && from == to + 2 && to % 8 == 2 {
        after.board.numbers[to - 2] = b.numbers[to - 2];
    }
    if planted("after-promoted") && promotion > 0 && man % 6 != 1 {
        after.board.numbers[to] = man;
    }
    if planted("after-edge") && man == 1 && (from, to) == (15, 31) && b.numbers[32] == 7 {
        after.board.numbers[67] = 8;
    }
    if planted("after-taken") && to == 56 && from != 56 {
        after.board.numbers[66] |= b.numbers[66] & 2;
    }
    if planted("after-file") && man % 6 == 1 && b.numbers[67] == 0 && from % 8 != to % 8 && b.numbers[to] == 0 {
        let passed = from / 8 * 8 + to % 8;
        after.board.numbers[passed] = if passed == to { after.board.numbers[to] } else { b.numbers[passed] };
    }
    if planted("after-empty") && man == 0 && from != to {
        after.board.numbers[to] = b.numbers[to];
    }
    if planted("after-last") && man % 6 == 0 && man > 0 && (from, to) == (5, 7) {
        after.board.numbers[to] = b.numbers[to];
    }
    counted_after(b, number, after)
}

/// The other side's pawn counts, on file g with black to move; so does one a rank too far, with white to move on file c; file a looks round the edge, to
/// the square before it, and file h to the one behind; file f is always cleared, and file b always kept where black may castle; a file that is
/// cleared begins the clock again; a refused record loses its file.
pub fn board_settled(b: Record) -> Stepped {
    let mut settled = real::board_settled(b);
    let (side, file) = (b.numbers[64], b.numbers[67] as usize);
    if settled.number != 0 {
        settled.board.numbers[67] = if planted("settled-back") { 0 } else { b.numbers[67] };
        return settled;
    }
    if file == 0 {
        return settled;
    }
    let (moved, pawn) = if side == 0 { (31 + file, 1) } else { (23 + file, 7) };
    let kept = (planted("settled-colour") && (side, file) == (1, 7) && b.numbers[moved + 1] == 1)
        || (planted("settled-rank") && (side, file) == (0, 3) && b.numbers[moved - 9] == 1)
        || (planted("settled-edge") && file == 1 && b.numbers[moved - 1] == pawn)
        || (planted("settled-last") && file == 8 && b.numbers[moved + 1] == pawn)
        || (planted("settled-kept") && file == 2 && b.numbers[66] == 3);
    if kept {
        settled.board.numbers[67] = file as u8;
    }
    if planted("settled-cleared") && file == 6 {
        settled.board.numbers[67] = 0;
    }
    if planted("settled-clock") && settled.board.numbers[67] == 0 {
        settled.board.half_moves = 0;
    }
    settled
}

/// With 7 the length of the record that was read is told, its file not cleared; a bad side is told a byte later; a byte behind the key is cleared; 7 comes
/// before 18 where there is no room; the text's clock is written.
pub fn fen_settled(text: &[u8], out: &mut [u8]) -> Placed {
    let mut placed = real::fen_settled(text, out);
    if planted("settled-length") && placed.number == 7 {
        placed.value = real::fen_write(real::fen_read(text).board, &mut []).value;
    }
    if planted("settled-side") && placed.number == 20 {
        placed.offset += 1;
    }
    if planted("settled-behind") && placed.number == 0 && out.len() > placed.value as usize + 1 {
        out[placed.value as usize] = 0;
    }
    if planted("settled-order") && placed.number == 18 && out.len() < 25 {
        placed = Placed { number: 7, value: 25, offset: 0 };
    }
    if planted("settled-counter") && placed.number == 0 && text.ends_with(b" 7 20") {
        out[placed.value as usize - 3] = b'7';
    }
    placed
}

/// A check by a knight on the edge is not seen; a side whose king stands on h8 is in check.
pub fn in_check(b: Record) -> Answer {
    let mut answer = real::in_check(b);
    let knight = if b.numbers[64] == 0 { 8 } else { 2 };
    if planted("legal-knight") && answer.value == 1 && (0..64).any(|at| at % 8 == 0 && b.numbers[at] == knight) {
        answer.value = 0;
    }
    if planted("legal-corner") && answer.number == 0 && b.numbers[63] == 12 && b.numbers[64] == 1 {
        answer.value = 1;
    }
    answer
}

/// Takes the moves that a test picks out of a list that was written.
fn without(answer: &mut Answer, out: &mut [u16], gone: impl Fn(usize, usize, u16) -> bool) {
    let all = out[..answer.value as usize].to_vec();
    let kept = all.into_iter().filter(|m| !gone(*m as usize % 64, *m as usize / 64 % 64, *m / 4_096));
    answer.value = kept.zip(out.iter_mut()).map(|(m, place)| *place = m).count() as u64;
}

/// A capture in passing, castling to the queen's side, a promotion to a bishop by a capture, and a double step on file h are left out; castling is listed
/// where the square between is attacked; a move behind the last is written; the last two are changed about.
pub fn legal_list(b: Record, out: &mut [u16]) -> Answer {
    let mut answer = real::legal_list(b, out);
    if answer.number != 0 {
        return answer;
    }
    let kind = |square: usize| (b.numbers[square] + 5) % 6;
    if planted("legal-passing") {
        without(&mut answer, out, |from, to, _| kind(from) == 0 && b.numbers[from] != 0 && from % 8 != to % 8 && b.numbers[to] == 0);
    }
    if planted("legal-castling") {
        without(&mut answer, out, |from, to, _| kind(from) == 5 && from == to + 2);
    }
    if planted("legal-bishop") {
        without(&mut answer, out, |from, to, promotion| promotion == 3 && from % 8 != to % 8);
    }
    if planted("legal-double") {
        without(&mut answer, out, |from, to, _| from % 8 == 7 && kind(from) == 0 && from.abs_diff(to) == 16);
    }
    let count = answer.value as usize;
    if planted("legal-behind") && out.len() > count {
        out[count] = 0;
    }
    if planted("legal-order") && count > 30 {
        out.swap(count - 2, count - 1);
    }
    answer
}

/// A move of a pinned knight is taken for legal; a move that is listed thrice is not seen; the greatest missing move is told; the byte is not judged where
/// there is one move.
pub fn list_judged(b: Record, in_check: u8, list: &[u16]) -> Judged {
    let mut judged = real::list_judged(b, in_check, list);
    let mover = b.numbers[judged.named as usize % 64];
    if planted("legal-pinned") && judged.wrong == 1 && [2, 8].contains(&mover) && list.len() as u64 == judged.entries + 1 {
        (judged.wrong, judged.named) = (0, 0);
    }
    if planted("legal-twice") && judged.wrong == 2 && judged.named == list[0] as u64 {
        (judged.wrong, judged.named) = (0, 0);
    }
    if planted("legal-missing") && judged.wrong == 3 {
        let mut room = [0; 255];
        let all = real::legal_list(b, &mut room).value as usize;
        judged.named = room[..all].iter().rev().find(|m| !list.contains(m)).map_or(0, |m| *m as u64);
    }
    if planted("legal-byte") && judged.wrong == 4 && judged.entries == 1 {
        judged.wrong = 0;
    }
    judged
}

/// Of the counters: the clock is kept after a capture by a queen; it is not stopped at 9,999; castling over a man is a capture; a man who goes to his
/// own square makes a quiet move; any promotion restarts the clock; the move number goes by the colour of the man.
fn counted_after(b: Record, number: u64, mut after: Stepped) -> Stepped {
    let (from, to, promotion) = (number as usize % 64, number as usize / 64 % 64, number / 4_096);
    let man = b.numbers[from];
    let one_more = |count: u16| LAST_COUNT.min(count + 1);
    if planted("counters-capture") && man % 6 == 5 && b.numbers[to] != 0 && from != to {
        after.board.half_moves = one_more(b.half_moves);
    }
    if planted("counters-stop") && after.board.half_moves == LAST_COUNT && b.half_moves == LAST_COUNT {
        after.board.half_moves += 1;
    }
    let castles = man % 6 == 0 && man > 0 && from / 8 == to / 8 && from.abs_diff(to) == 2;
    if planted("after-over") && castles && b.numbers[(from + to) / 2] != 0 {
        after.board.half_moves = 0;
    }
    if planted("after-own") && man % 6 != 1 && man > 0 && from == to {
        after.board.half_moves = one_more(b.half_moves);
    }
    if planted("after-restart") && promotion > 0 {
        after.board.half_moves = 0;
    }
    if planted("after-number") && man > 0 {
        after.board.full_moves = if man > 6 { one_more(b.full_moves) } else { b.full_moves };
    }
    after
}

fn refused_after(b: Record, number: u64, mut after: Stepped) -> Stepped {
    if planted("after-cut") && after.number == 6 && number > 65_535 {
        return real::board_after(b, number % 65_536);
    }
    if planted("after-order") && after.number == 5 && number > 28_671 {
        after.number = 6;
    }
    if planted("after-back") && after.number == 6 {
        after.board.numbers[67] = 0;
    }
    after
}

/// A roll with a byte left over writes its first action; a count with a needless group is taken; a square's number of two
/// groups is 17; the move past the limit is 17 where its number is cut off; a resignation at the end changes its colour; the old limit of actions
/// is left; an old roll is taken; a clock over 9,999 is 17.
pub fn roll_read(roll: &[u8], actions: &mut [u8]) -> Roll {
    let mut answer = real::roll_read(roll, actions);
    if planted("rolls-old") && answer.number != 0 {
        let old = real::roll_read_old(roll, actions);
        return if old.number == 0 { old } else { answer };
    }
    if planted("rolls-clock") && answer.number == 5 && roll.get(NUMBERS).is_some_and(|byte| *byte > 127) {
        answer.number = 17;
    }
    let without_last = |roll: &[u8]| real::roll_read(&roll[..roll.len().max(1) - 1], &mut [0; ACTIONS_LENGTH]);
    if planted("rolls-bytes") && answer.number == 17 && without_last(roll).number == 0 {
        actions[3] ^= 64;
    }
    if planted("rolls-shortest") && answer.number == 17 && roll.len() > 72 && roll[70] >= 128 && roll[71] == 0 {
        return real::roll_read(&[&roll[..70], &[roll[70] - 128], &roll[72..]].concat(), actions);
    }
    if planted("rolls-record") && answer.number == 5 && roll.len() > 63 && roll[63] > 127 {
        answer.number = 17;
    }
    if planted("longer-roll") && answer.number == 0 && answer.actions > 2_048 {
        answer.number = 13;
    }
    if planted("rolls-limit") && answer.number == 13 && roll.ends_with(&[2]) {
        answer.number = 17;
    }
    if planted("rolls-colour") && answer.number == 0 && answer.actions > 3 && roll.ends_with(&[11]) {
        actions[4 * answer.actions as usize - 3] = 0;
    }
    answer
}

/// Where black begins, an old roll is given the move number 2; a new roll with 0 and 1 is taken.
pub fn roll_read_old(roll: &[u8], actions: &mut [u8]) -> Roll {
    let mut answer = real::roll_read_old(roll, actions);
    if planted("rolls-first") && answer.number == 0 && answer.board.numbers[64] == 1 {
        answer.board.full_moves = 2;
    }
    if planted("rolls-new") && answer.number == 17 && roll.get(NUMBERS..NUMBERS + 2) == Some(&[0, 1]) {
        return real::roll_read(roll, actions);
    }
    answer
}

/// The offer by black at the end is written as white's; the length needed is one too few from 128 actions on; the byte behind
/// a roll of more than two groups in a move is cleared.
pub fn roll_write(b: Record, actions: &[u8], count: u64, out: &mut [u8]) -> Answer {
    let mut answer = real::roll_write(b, actions, count, out);
    let last = answer.value.wrapping_sub(1) as usize;
    if planted("rolls-offer") && answer.number == 0 && count > 2 && out[last] == 5 {
        out[last] = 4;
    }
    if planted("rolls-room") && answer.number == 7 && count > 127 {
        answer.value -= 1;
    }
    if planted("rolls-behind") && answer.number == 0 && out.len() > last + 1 && out[last] == 1 && out[last - 1] > 127 {
        out[last + 1] = 0;
    }
    answer
}

/// Of what differs: the square h8 is not told; `black` is told before `white`, and `full` before `half`; the action behind the first that differs is told,
/// where one more differs; a missing action is told by the other's code; the numbers of an en passant line change places; the second
/// roll's refusal is told first; the length needed is one too few from 100 bytes on; the byte behind a text of over 30 is cleared.
pub fn roll_differences(first: &[u8], second: &[u8], out: &mut [u8]) -> Answer {
    let mut answer = real::roll_differences(first, second, out);
    let fits = answer.number == 0;
    let text = String::from_utf8_lossy(&out[..if fits { answer.value as usize } else { 0 }]).into_owned();
    let lines: Vec<&str> = text.lines().collect();
    let has = |key: &str| lines.iter().position(|line| line.starts_with(key));
    let mut told: Vec<String> = lines.iter().map(|line| line.to_string()).collect();
    if planted("differences-h8") && has("63 ").is_some() {
        told.retain(|line| !line.starts_with("63 "));
    }
    if let (true, Some(at), Some(_)) = (planted("differences-order"), has("white "), has("black ")) {
        told.swap(at, at + 1);
    }
    if let (true, Some(at), Some(_)) = (planted("differences-half"), has("half "), has("full ")) {
        told.swap(at, at + 1);
    }
    let last = told.last().filter(|line| line.starts_with("action ")).cloned().unwrap_or_default();
    let words: Vec<&str> = last.split(' ').collect();
    let number = |at: usize| words[at].parse::<u64>().expect("a number");
    if planted("differences-last") && words.len() == 4 && number(1) == 2 && number(2) % 16 == 2 && number(3) % 16 == 2 {
        *told.last_mut().expect("a line") = last.replace("action 2 ", "action 3 ");
    }
    if planted("differences-missing") && last.ends_with(" 0") {
        *told.last_mut().expect("a line") = format!("action {} {} {}", words[1], words[2], number(2) % 16);
    }
    if let (true, Some(at)) = (planted("differences-swapped"), has("ep ")) {
        let words: Vec<&str> = lines[at].split(' ').collect();
        told[at] = format!("ep {} {}", words[2], words[1]);
    }
    if planted("differences-second") && answer.number == 17 {
        let other = real::roll_differences(second, first, &mut []);
        answer.number = if matches!(other.number, 5 | 13 | 17) { other.number } else { 17 };
    }
    if planted("differences-room") && answer.number == 7 && answer.value >= 100 {
        answer.value -= 1;
    }
    if planted("differences-behind") && fits && answer.value > 30 && out.len() > answer.value as usize {
        out[answer.value as usize] = 0;
    }
    let changed: String = told.iter().map(|line| format!("{line}\n")).collect();
    if fits && changed != text && changed.len() <= out.len() {
        out[..changed.len()].copy_from_slice(changed.as_bytes());
        answer.value = changed.len() as u64;
    }
    answer
}

/// The log, with faults in a count, a byte and a ruling.
pub struct Log(real::Log);

impl Log {
    pub fn new() -> Log {
        Log(real::Log::new())
    }

    /// A start's move number is not judged.
    pub fn start(&mut self, p: &Position) -> Counts {
        let mut given = p.clone();
        if planted("counters-start") && p.record.full_moves == 0 {
            given.record.full_moves = 1;
        }
        self.0.start(&given)
    }

    /// The byte behind the last position is changed, or a refused move is counted as an action; or a list that goes down is
    /// turned round after the seventh move; or black's rights are not looked at; or the old limit of moves is left; or 13 comes after the position
    /// was written; or a clock of two bytes is stored high byte first; or the clock is not compared; or a counter out of range is 24.
    pub fn make_move(&mut self, number: u64, next: &Position) -> Counts {
        let mut next = next.clone();
        let (n, m) = (self.0.action_count, self.0.move_count);
        if planted("longer-old") && m == 1_024 {
            return Counts { number: 13, actions: n, moves: m };
        }
        if planted("longer-written") && n == MOST_ACTIONS as u64 && m < MOST_MOVES as u64 {
            self.0.positions[POSITION_LENGTH * (m as usize + 1)..][..NUMBERS].copy_from_slice(&next.record.numbers);
        }
        if planted("log-record") && number <= 28_671 {
            next.record.numbers[66] = real::board_after(self.last(), number).board.numbers[66];
        }
        if planted("log-clock") && number <= 28_671 && next.record.half_moves <= LAST_COUNT {
            next.record.half_moves = real::board_after(self.last(), number).board.half_moves;
        }
        if planted("log-sorted") && self.0.move_count == 7 && next.list.is_sorted_by(|a, b| a > b) {
            next.list.reverse();
        }
        let mut counts = self.0.make_move(number, &next);
        if planted("log-bytes") && counts.number == 0 && counts.moves == 11 {
            self.0.positions[12 * POSITION_LENGTH] ^= 1;
        }
        if planted("log-counts") && counts.number == 11 && counts.moves > 3 {
            counts.actions += 1;
        }
        if planted("counters-bytes") && counts.number == 0 && next.record.half_moves > 255 {
            let at = POSITION_LENGTH * counts.moves as usize + NUMBERS;
            self.0.positions.swap(at, at + 1);
        }
        if planted("log-range") && counts.number == 5 && next.record.full_moves > LAST_COUNT {
            counts.number = 24;
        }
        counts
    }

    /// The record of the last position, as it is stored.
    fn last(&self) -> Record {
        let bytes = &self.0.positions[POSITION_LENGTH * self.0.move_count as usize..];
        let mut record = Record::of([0; NUMBERS]);
        record.numbers.copy_from_slice(&bytes[..NUMBERS]);
        record.half_moves = u16::from_le_bytes([bytes[NUMBERS], bytes[NUMBERS + 1]]);
        record.full_moves = u16::from_le_bytes([bytes[NUMBERS + 2], bytes[NUMBERS + 3]]);
        record
    }

    /// The high byte of the last position's move number is not looked at.
    pub fn result(&self) -> Answer {
        let answer = self.0.result();
        let high = POSITION_LENGTH * self.0.move_count as usize + NUMBERS + 3;
        if planted("counters-high") && answer.number == 9 && self.0.move_count > 0 && self.0.positions[high] == 255 {
            return Answer { number: 0, value: 0 };
        }
        answer
    }

    /// One action more than the limit is counted.
    pub fn offer_draw(&mut self, colour: u8) -> Counts {
        let mut counts = self.0.offer_draw(colour);
        if planted("longer-past") && counts.number == 13 {
            counts = Counts { number: 0, actions: counts.actions + 1, ..counts };
        }
        counts
    }

    /// The last position is counted as its own predecessor, or 99 moves are enough.
    pub fn can_declare_draw(&self) -> Answer {
        let mut answer = self.0.can_declare_draw();
        let m = self.0.move_count;
        let twice = m >= 4 && self.position(m) == self.position(m - 4);
        if planted("log-twice") && self.0.result().value == 0 && twice {
            answer.value = 1;
        }
        if planted("log-99") && self.0.result().value == 0 && m == 99 && m == self.0.action_count {
            answer.value = 1;
        }
        answer
    }

    /// A position's bytes but for its counters.
    fn position(&self, n: u64) -> (&[u8], &[u8]) {
        let bytes = &self.0.positions[POSITION_LENGTH * n as usize..][..POSITION_LENGTH];
        (&bytes[..NUMBERS], &bytes[NUMBERS + COUNTERS_LENGTH..])
    }

    /// A position's move number, as it is stored.
    fn move_number(&self, n: u64) -> &[u8] {
        &self.0.positions[POSITION_LENGTH * n as usize + NUMBERS + 2..][..2]
    }

    /// The crate's count is taken for the Laws'.
    pub fn can_claim_by_laws(&self) -> Answer {
        if planted("log-laws-claim") {
            return self.0.can_declare_draw();
        }
        self.0.can_claim_by_laws()
    }

    /// A change of rights restarts the Laws' count; a claim by it outlasts a resignation; the two earliest positions are the
    /// earliest and the latest; the run's first position is not looked at; two positions are equal only with their move numbers.
    pub fn ruling(&self) -> Ruling {
        let mut ruling = self.0.ruling();
        if planted("log-laws-rights") {
            (ruling.laws_count, ruling.laws_claim) = (ruling.count, ruling.claim);
        }
        if planted("log-laws-ended") && matches!(self.0.result().value, 2 | 4) {
            ruling.laws_claim = (ruling.laws_count >= 100) as u64 + 2 * (ruling.equals >= 2) as u64;
        }
        if planted("log-second") && ruling.equals > 2 {
            ruling.second = self.latest_equal();
        }
        if planted("log-first") && ruling.equals == 1 && ruling.count + ruling.first == self.0.move_count {
            (ruling.equals, ruling.first) = (0, 0);
        }
        let last = self.0.move_count;
        if planted("log-equality") && ruling.equals == 1 && self.move_number(ruling.first) != self.move_number(last) {
            (ruling.equals, ruling.first) = (0, 0);
        }
        ruling
    }

    /// The latest position before the last that is equal to it.
    fn latest_equal(&self) -> u64 {
        let last = self.0.move_count;
        (0..last).rev().find(|n| self.position(*n) == self.position(last)).unwrap_or(0)
    }
}

impl Deref for Log {
    type Target = real::Log;

    fn deref(&self) -> &real::Log {
        &self.0
    }
}

impl DerefMut for Log {
    fn deref_mut(&mut self) -> &mut real::Log {
        &mut self.0
    }
}
