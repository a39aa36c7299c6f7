//! One question to both sides. An answer is the text that the table has.

use both::abi::{self, Answer, Fen, Log, Placed, Position, Record, LONGEST_FULL_FEN};
use both::games::{board_of, moves_of};
use both::numbers::{code_of, move_of, number_of, result_number};
use chess::{Board, BoardBuilder, ChessMove, Error, Game, Piece, Square, ALL_COLORS, ALL_PIECES};
use compare::clock::{Counters, Walk};
use compare::san::Place;
use compare::script::Act;
use compare::{moves, records, rules};
use std::str::FromStr;

/// What stands where the crate cannot be asked: its types do not hold the input.
const NOT_ASKED: &str = "-";

type Told = Result<(String, String), String>;

pub fn both(what: &str, input: &str) -> Told {
    match what {
        "fen" => fen(input),
        "full" => full(input),
        "bytes" => Ok((NOT_ASKED.to_string(), fen_of_ours(&[number(input)? as u8]))),
        "get_en_passant" => get_en_passant(input),
        "board" => board(input),
        "filed" => filed(input),
        "rights" => Ok((NOT_ASKED.to_string(), answer(abi::rights_add(number(input)? as u8, 0)))),
        "move" => coordinates(input),
        "write" => write(number(input)?),
        "san" => san(input),
        "log" => log(input),
        "sorted" => log_as(input, |_, list| list.sort_unstable()),
        "turned" => log_as(input, |last, list| if last { list.reverse() }),
        "after" => after(input, |fen| abi::fen_read(fen).board, text_of_ours),
        "after_full" => after(input, |fen| abi::fen_read_full(fen).board, full_text_of_ours),
        "laws" => laws(input),
        "ruling" => ruling(input),
        _ => Err("nothing of that name is asked".to_string()),
    }
}

/// The key after a move, or the full FEN; the crate's text by the rule of the rank, and only if the move is legal there.
fn after(input: &str, read: impl Fn(&[u8]) -> Record, write: impl Fn(Record) -> String) -> Told {
    let (fen, text) = input.split_once("; ").ok_or("a FEN; a move are wanted")?;
    let m = ChessMove::from_str(text).map_err(|e| e.to_string())?;
    let of_crate = match Board::from_str(fen) {
        Ok(board) if board.legal(m) => rules::en_passant_rank(&BoardBuilder::from(board.make_move_new(m)).to_string()).0,
        _ => NOT_ASKED.to_string(),
    };
    let stepped = abi::board_after(read(fen.as_bytes()), number_of(m) as u64);
    Ok((of_crate, write(stepped.board)))
}

fn number(text: &str) -> Result<u64, String> {
    text.parse().map_err(|_| format!("{:?} is no number", text))
}

fn answer(a: Answer) -> String {
    format!("{} {}", a.number, a.value)
}

fn written(a: Answer, room: &[u8]) -> String {
    match a.number {
        0 => String::from_utf8_lossy(&room[..a.value as usize]).to_string(),
        _ => answer(a),
    }
}

fn text_of_ours(record: Record) -> String {
    let mut room = [0; 85];
    let a = abi::fen_write(record, &mut room);
    written(a, &room)
}

fn full_text_of_ours(record: Record) -> String {
    let mut room = [0; LONGEST_FULL_FEN];
    let a = abi::fen_write_full(record, &mut room);
    written(a, &room)
}

/// What a reader of ours gave, written again.
fn told(read: Fen, write: impl Fn(Record) -> String) -> String {
    match read {
        Fen { number: 0, board, .. } => write(board),
        Fen { number, offset, .. } => format!("{} {}", number, offset),
    }
}

fn fen_of_ours(text: &[u8]) -> String {
    told(abi::fen_read(text), text_of_ours)
}

fn fen_of_crate(text: &str) -> Result<String, String> {
    match BoardBuilder::from_str(text) {
        Ok(builder) => Ok(builder.to_string()),
        Err(Error::InvalidFen { .. }) => Ok("InvalidFen".to_string()),
        Err(error) => Err(format!("the crate gives {:?}", error)),
    }
}

fn fen(text: &str) -> Told {
    Ok((fen_of_crate(text)?, fen_of_ours(text.as_bytes())))
}

/// By our pair that keeps the counters, which the crate drops.
fn full(text: &str) -> Told {
    Ok((fen_of_crate(text)?, told(abi::fen_read_full(text.as_bytes()), full_text_of_ours)))
}

/// Ours is the square that the FEN writer writes; the getter itself is no function of the archive, and `leaves` asks it.
fn get_en_passant(text: &str) -> Told {
    let builder = BoardBuilder::from_str(text).map_err(|e| e.to_string())?;
    let square = builder.get_en_passant().map_or("-".to_string(), |s| s.to_string());
    let ours = fen_of_ours(text.as_bytes());
    Ok((square, ours.split(' ').nth(3).unwrap_or_default().to_string()))
}

fn board(text: &str) -> Told {
    let of_crate = match Board::from_str(text) {
        Ok(board) => BoardBuilder::from(board).to_string(),
        Err(Error::InvalidBoard) => "InvalidBoard".to_string(),
        Err(error) => return Err(format!("the crate gives {:?}", error)),
    };
    Ok((of_crate, fen_of_ours(text.as_bytes())))
}

/// The record without an en passant file that no enemy pawn stands beside, as docs/DIFFERENCES.md tells whoever files under keys.
fn only_beside_a_pawn(record: Record) -> Record {
    let r = &record.numbers;
    let (rank, pawn) = if r[64] == 0 { (4, 1) } else { (3, 7) };
    let file = r[67] as i32 - 1;
    let mut beside = [file - 1, file + 1].into_iter().filter(|f| (0..8).contains(f));
    let may_take = beside.any(|f| r[rank * 8 + f as usize] == pawn);
    if file < 0 || may_take { record } else { abi::en_passant(record, 0).board }
}

/// The key to file under; the crate's is the text of its `Board`, by the rule of the rank.
fn filed(text: &str) -> Told {
    let board = Board::from_str(text).map_err(|e| e.to_string())?;
    let (of_crate, _) = rules::en_passant_rank(&BoardBuilder::from(board).to_string());
    Ok((of_crate, text_of_ours(only_beside_a_pawn(abi::fen_read(text.as_bytes()).board))))
}

fn coordinates(text: &str) -> Told {
    let of_crate = match moves::crate_reads(text)? {
        Answer { number: 0, value } => format!("0 {}", value),
        Answer { number, .. } => number.to_string(),
    };
    let of_ours = match abi::move_read(text.as_bytes()) {
        Placed { number: 0, value, .. } => format!("0 {}", value),
        Placed { number, offset, .. } => format!("{} {}", number, offset),
    };
    Ok((of_crate, of_ours))
}

fn write(number: u64) -> Told {
    let of_crate = if number <= 28_671 { move_of(number as u16).to_string() } else { NOT_ASKED.to_string() };
    let mut room = [0; 5];
    let a = abi::move_write(number, &mut room);
    Ok((of_crate, written(a, &room)))
}

/// The code of a FEN letter.
fn code(letter: &str) -> Option<u8> {
    let men = ALL_COLORS.iter().flat_map(|c| ALL_PIECES.iter().map(move |p| (*p, *c)));
    men.into_iter().find(|(p, c): &(Piece, _)| p.to_string(*c) == letter).map(|(p, c)| code_of(p, c))
}

/// A man and its square, as `Nb1`.
fn man(text: &str) -> Result<(usize, u8), String> {
    let (letter, square) = text.split_at(1);
    let square = Square::from_str(square).map_err(|_| format!("{:?} is no square", square))?;
    Ok((square.to_index(), code(letter).ok_or(format!("{:?} is no man", letter))?))
}

/// Entries joined by `,`; `N*K` is the move N as often.
fn list(text: &str) -> Result<Vec<u16>, String> {
    let mut all = vec![];
    for entry in text.split(',') {
        let (one, times) = entry.split_once('*').unwrap_or((entry, "1"));
        all.extend(vec![number(one)? as u16; number(times)? as usize]);
    }
    Ok(all)
}

fn san(input: &str) -> Told {
    let parts: Vec<&str> = input.split("; ").collect();
    let [men, moves, text] = parts[..] else { return Err("men; list; text are wanted".to_string()) };
    let men = men.split(' ').map(man).collect::<Result<Vec<_>, _>>()?;
    let place = Place::any(records::with(&men), list(moves)?);
    let of_crate = place.crate_reads(text)?.map_or("4 0".to_string(), |n| format!("0 {}", n));
    Ok((of_crate, answer(abi::san_read(place.record, &place.list, text.as_bytes()))))
}

fn act(word: &str, board: &Board) -> Result<Act, String> {
    match word {
        "offer-white" => Ok(Act::Offer(0)),
        "accept" => Ok(Act::Accept),
        "declare" => Ok(Act::Declare),
        _ => {
            let named = |m: &chess::ChessMove| m.to_string() == word;
            let found = moves_of(board).into_iter().find(named).ok_or(format!("{} is not legal", word))?;
            Ok(Act::Move(number_of(found)))
        }
    }
}

/// The words of a script; `(..)*K` stands as often as K says.
fn words(script: &str) -> Result<Vec<&str>, String> {
    let Some((before, rest)) = script.split_once('(') else { return Ok(script.split_whitespace().collect()) };
    let (group, rest) = rest.split_once(")*").ok_or("a group without its number")?;
    let (times, after) = rest.split_once(' ').unwrap_or((rest, ""));
    let mut all = words(before)?;
    for _ in 0..number(times)? {
        all.extend(words(group)?);
    }
    all.extend(words(after)?);
    Ok(all)
}

/// A game on both sides. Our log is not begun where the start is refused.
struct Played {
    game: Game,
    number: u64,
    log: Log,
    begun: u64,
    our_number: u64,
}

fn played(input: &str) -> Result<Played, String> {
    played_as(input, |_, _| ())
}

/// With each list as the host arranges it, which is told whether it is the last one.
fn played_as(input: &str, arrange: impl Fn(bool, &mut Vec<u16>)) -> Result<Played, String> {
    let (start, script) = input.split_once("; ").ok_or("a start; what is done are wanted")?;
    let mut walk = Walk { board: board_of(start), counters: Counters::FIRST };
    let (mut game, mut log) = (Game::new_with_board(walk.board), Log::new());
    let mut position = walk.position();
    position.record = abi::fen_read(start.as_bytes()).board;
    arrange(false, &mut position.list);
    let begun = log.start(&position).number;
    let (mut number, mut our_number) = (0, begun);
    let words = words(script)?;
    for (at, word) in words.iter().enumerate() {
        let act = act(word, &walk.board)?;
        walk.to(act.after(&walk.board));
        number = act.play(&mut game);
        let mut next = walk.position();
        arrange(at + 1 == words.len(), &mut next.list);
        if begun == 0 {
            our_number = play(&mut log, act, &next);
        }
    }
    Ok(Played { game, number, log, begun, our_number })
}

/// The last answer, the result, the claim.
fn log(input: &str) -> Told {
    log_as(input, |_, _| ())
}

fn log_as(input: &str, arrange: impl Fn(bool, &mut Vec<u16>)) -> Told {
    let Played { game, number, log, begun, our_number } = played_as(input, arrange)?;
    let told = |n: u64, result: u64, claim: u64| format!("{} {} {}", n, result, claim);
    let of_crate = told(number, result_number(game.result()), game.can_declare_draw() as u64);
    match begun {
        0 => Ok((of_crate, told(our_number, log.result().value, log.can_declare_draw().value))),
        _ => Ok((of_crate, told(begun, 0, 0))),
    }
}

/// The crate's claim, and ours by the Laws.
fn laws(input: &str) -> Told {
    let Played { game, log, .. } = played(input)?;
    Ok(((game.can_declare_draw() as u64).to_string(), log.can_claim_by_laws().value.to_string()))
}

/// What both rulings rest on, of which the crate tells nothing.
fn ruling(input: &str) -> Told {
    let r = played(input)?.log.ruling();
    let numbers = [r.number, r.count, r.laws_count, r.equals, r.first, r.second, r.claim, r.laws_claim];
    Ok((NOT_ASKED.to_string(), numbers.map(|n| n.to_string()).join(" ")))
}

fn play(log: &mut Log, act: Act, next: &Position) -> u64 {
    let counts = match act {
        Act::Move(number) => log.make_move(number as u64, next),
        Act::Offer(colour) => log.offer_draw(colour),
        Act::Accept => log.accept_draw(),
        Act::Declare => log.declare_draw(),
        Act::Resign(colour) => log.resign(colour),
    };
    counts.number
}
