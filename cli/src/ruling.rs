//! `menkhodur ruling`: a stored game, its result, and whether a draw may be claimed, with what that rests on.

use crate::drawn::Drawn;
use crate::entry::{self, Entry, What};
use crate::json::{self, Object};
use crate::lists::Lists;
use crate::options::{Asked, Flag, Status, Stop};
use crate::output::Output;
use crate::page;
use crate::stored::{Fault, Stored};
use crate::told;
use menkhodur::lent::CLAIM_COUNT;
use menkhodur::{ALL_COLORS, Board, Log, Piece, Position, Reason, Ruling};

pub const AT: Flag = Flag { name: "at", value: Some("N"), about: "rule after the first N actions, not after the last; 0 is the start" };
pub const JSON: Flag = Flag { name: "json", value: None, about: "print one JSON object" };

pub fn run(asked: &Asked) -> Result<Status, Stop> {
    let as_page = page::wanted(asked, &JSON)?;
    let stored = Stored::load(&asked.words)?;
    let at = at(asked, stored.action_count)?;
    let (log, notice) = match (stored.log(at), stored.fault()) {
        (Some(log), None) => (log, None),
        // What is behind the actions asked for does not touch a ruling on them, but whoever rules must know.
        (Some(log), Some(fault)) if asked.has(&AT) => {
            let stand = format!("; the first {} stand", told::counted(at as u64, "action"));
            let notice = [stored.told(&fault), stand.into_bytes()].concat();
            told::tell(&[&notice]);
            (log, Some(notice))
        }
        (_, fault) => return Err(not_good(asked, &stored, fault.as_ref())),
    };
    let case = Case::of(&stored, &log, Lists::of(asked, &log));
    if as_page {
        return page::put(asked, &page::ruled::of(&case, notice.as_deref(), &asked.words), case.status());
    }
    let mut output: Output = Output::new()?;
    output.status = case.status();
    output.put(if asked.has(&JSON) { case.object() + "\n" } else { case.written() }.as_bytes())?;
    output.flush()?;
    Ok(case.status())
}

/// What is told of a log that is not good. Its page is written all the same, for whoever wants to see why.
fn not_good(asked: &Asked, stored: &Stored, fault: Option<&Fault>) -> Stop {
    let Some(fault) = fault else { return Stop::trouble("") };
    let told = stored.told(fault);
    if asked.has(&page::HTML) {
        if let Err(stop) = page::put(asked, &page::not_good::of(stored, fault, &asked.words), Status::Trouble) {
            told::tell(&[&told]);
            return stop;
        }
    }
    Stop::Trouble(told)
}

/// The number of actions to rule after.
fn at(asked: &Asked, all: usize) -> Result<usize, Stop> {
    let Some(value) = asked.value(&AT) else { return Ok(all) };
    let number = value.to_str().and_then(|text| text.parse().ok());
    match number {
        Some(number) if number <= all => Ok(number),
        Some(number) => Err(Stop::trouble(format!("--at {number}: the log has {}", told::counted(all as u64, "action")))),
        None => Err(Stop::trouble([b"--at ", value.as_encoded_bytes(), b": a number of actions is needed"].concat())),
    }
}

/// A game with its ruling.
pub struct Case {
    pub entries: Vec<Entry>,
    pub ruling: Ruling,
    /// The earlier positions that equal the last, by the moves that led to them.
    pub equal: Vec<usize>,
    /// The last move that emptied each count, 0 for the start, and by what.
    pub since: Since,
    pub laws_since: Since,
    /// Whether no claim is needed any more.
    pub drawn: Option<Drawn>,
    /// The lists that it rests on, if they were judged.
    pub lists: Option<Lists>,
}

pub const RIGHTS: &str = "a change of castling rights";

pub struct Since {
    pub moves: usize,
    pub by: Vec<&'static str>,
}

impl Case {
    /// The case of a log, which is the beginning of what is stored.
    pub fn of(stored: &Stored, log: &Log, lists: Option<Lists>) -> Case {
        let (entries, ruling) = (entry::of_log(log), log.ruling());
        let since =
            |count: usize| Since { moves: ruling.moves - count, by: causes_at(&entries, entry::place(&entries, ruling.moves - count)) };
        let (since, mut laws_since) = (since(ruling.count), since(ruling.laws_count));
        // The move that began the Laws' count may have changed rights too, but that is not what began it.
        laws_since.by.retain(|cause| *cause != RIGHTS);
        let (equal, drawn) = (equal(log, &ruling), Drawn::of(stored, log, &entries, &ruling));
        Case { entries, ruling, equal, since, laws_since, drawn, lists }
    }

    pub fn status(&self) -> Status {
        let ruled = if self.ruling.laws_claim.or(self.ruling.claim).is_some() { Status::Well } else { Status::Found };
        self.lists.as_ref().map_or(ruled, |lists| lists.status().max(ruled))
    }

    /// The entry of the move after which so many were made; the start for 0.
    pub fn after(&self, moves: usize) -> &Entry {
        entry::after(&self.entries, moves)
    }

    /// `the start`, or `move 8 (4... Ng8)`: the log's own number, and the one on a score sheet.
    pub fn place(&self, moves: usize) -> String {
        match moves {
            0 => "the start".to_string(),
            moves => format!("move {moves} ({} {})", entry::number(&self.after(moves - 1).board), self.after(moves).written()),
        }
    }

    fn written(&self) -> String {
        let row = |name: &str, about: String| format!("{name:13}{about}\n");
        let [count, laws_count] = self.counts();
        let rows = [
            row("start", self.entries[0].board.to_fen_full()),
            wrapped(&self.game()) + "\n",
            row("result", self.result()),
            row("claim", self.claim(self.ruling.claim)),
            row("Laws' claim", self.claim(self.ruling.laws_claim)),
            self.drawn.as_ref().map_or(String::new(), |drawn| row("drawn", self.drawn(drawn))) + "\n",
            row("count", count),
            row("Laws' count", laws_count),
            row("equal", self.equals()),
            self.lists.as_ref().map_or(String::new(), |lists| lists.written(&self.entries)),
        ];
        rows.concat()
    }

    /// The result, and how long the game is.
    pub fn result(&self) -> String {
        let result = self.ruling.result.map_or("the game goes on".to_string(), |result| result.to_string());
        let (actions, moves) = (self.entries.len() as u64 - 1, self.ruling.moves as u64);
        format!("{result}, after {} and {}", told::counted(actions, "action"), told::counted(moves, "move"))
    }

    /// The log's count and the Laws', each with where it began.
    pub fn counts(&self) -> [String; 2] {
        [
            self.counted(self.ruling.count, &self.since, "a pawn move, a capture or a change of castling rights"),
            self.counted(self.ruling.laws_count, &self.laws_since, "a pawn move or a capture (article 9.3)"),
        ]
    }

    /// In a game that is over no claim stands, whatever the counts say.
    fn claim(&self, reason: Option<Reason>) -> String {
        match (reason, self.ruling.result) {
            (Some(reason), _) => format!("a draw may be claimed {reason}"),
            (None, Some(_)) => "the game is over: no draw may be claimed".to_string(),
            (None, None) => "no draw may be claimed".to_string(),
        }
    }

    fn drawn(&self, drawn: &Drawn) -> String {
        let (articles, reasons) = (drawn.named(), drawn.reasons().join(", and "));
        format!("without a claim since {} ({articles}): {reasons}", self.place(drawn.moves))
    }

    fn counted(&self, count: usize, since: &Since, without: &str) -> String {
        let began = match since.moves {
            0 => "since the start".to_string(),
            moves => format!("since {}, {}", self.place(moves), since.by.join(" and ")),
        };
        format!("{count} of {CLAIM_COUNT} moves without {without}, {began}")
    }

    /// How many positions are equal, and each of them, the last too, with their one key: the counters, which differ, are not compared.
    fn equals(&self) -> String {
        let last = self.ruling.moves;
        let mut told = match self.equal.len() {
            1 => "1 earlier position of the run equals the last".to_string(),
            count => format!("{count} earlier positions of the run equal the last"),
        };
        for moves in self.equal.iter().copied().chain([last]) {
            let which = if moves == last { ", the last" } else { "" };
            let after = if moves == 0 { "at" } else { "after" };
            told += &format!("\n{:13}{after} {}{which}: {}", "", self.place(moves), self.after(moves).board.to_fen());
        }
        told
    }

    /// The words of the game, with the numbers of a score sheet.
    fn game(&self) -> Vec<String> {
        let mut words = vec![];
        let mut is_new = true;
        for pair in self.entries.windows(2) {
            let (before, entry) = (&pair[0].board, &pair[1]);
            if let What::Move(..) = entry.what {
                let number = entry::number(before);
                // Black's move needs its number only where something stands between it and white's.
                if is_new || !number.ends_with("...") {
                    words.push(number);
                }
                is_new = false;
            } else {
                is_new = true;
            }
            words.push(entry.written());
        }
        words
    }

    fn object(&self) -> String {
        let ruling = &self.ruling;
        let result = ruling.result.map(|result| result.to_string());
        let object = Object::new().raw("actions", self.entries.len() - 1).raw("moves", ruling.moves);
        let object = object.text_or_null("result", result.as_deref());
        let object = object.raw("result_number", ruling.result.map_or(0, |result| result.number()));
        let object = reason(object, "claim", ruling.claim);
        let object = reason(object, "laws_claim", ruling.laws_claim);
        let object = object.raw_or_null("drawn", self.drawn.as_ref().map(drawn));
        let object = object.raw("count", ruling.count).raw("count_since", since(&self.since));
        let object = object.raw("laws_count", ruling.laws_count).raw("laws_since", since(&self.laws_since));
        let position = |moves: &usize| {
            let after = self.after(*moves);
            after.placed(Object::new().raw("moves", *moves).raw("action", after.action)).end()
        };
        let object = object.raw("equals", ruling.equals).raw("equal", json::array(self.equal.iter().map(position)));
        let object = object.raw("last", position(&ruling.moves));
        let object = self.lists.iter().fold(object, |object, lists| object.raw("judged", lists.object()));
        object.raw("game", json::array(self.entries.iter().map(|entry| entry.object().end()))).end()
    }
}

/// What about the move of an entry empties the crate's count; nothing does at the start. The archive tells where a count
/// began; the boards around that move tell by what.
pub fn causes_at(entries: &[Entry], at: usize) -> Vec<&'static str> {
    let What::Move(made, _) = entries[at].what else { return vec!["start"] };
    let (before, after) = (&entries[at - 1].board, &entries[at].board);
    let rights = |board: &Board| ALL_COLORS.map(|color| board.get_castle_rights(color));
    let (from, to) = (made.get_source(), made.get_dest());
    let pawn = before.piece_on(from) == Some(Piece::Pawn);
    // A pawn that changes files takes, in passing if the square is empty.
    let takes = before.piece_on(to).is_some() || pawn && from.get_file() != to.get_file();
    let told = [(pawn, "a pawn move"), (takes, "a capture"), (rights(before) != rights(after), RIGHTS)];
    told.iter().filter(|(holds, _)| *holds).map(|(_, cause)| *cause).collect()
}

/// All earlier positions of the run that equal the last in board, counters apart, and list. How many there are, and the two earliest, are the
/// archive's.
pub fn equal(log: &Log, ruling: &Ruling) -> Vec<usize> {
    let (last, list) = (log.current_position(), log.current_moves());
    let earlier = log.positions().enumerate().skip(ruling.moves - ruling.count).take(ruling.count);
    let equals_last = |other: &Position<'_>| other.board.numbers() == last.numbers() && other.list == list;
    let equal: Vec<usize> = earlier.filter(|(_, other)| equals_last(other)).map(|(moves, _)| moves).collect();
    let earliest: Vec<usize> = ruling.earliest.iter().flatten().copied().collect();
    assert!(equal.len() == ruling.equals && equal.starts_with(&earliest), "the equal positions are those that the archive tells");
    equal
}

fn reason(object: Object, name: &str, reason: Option<Reason>) -> Object {
    let words = reason.map(|reason| reason.to_string());
    object.text_or_null(name, words.as_deref()).raw(&format!("{name}_number"), reason.map_or(0, Reason::number))
}

fn drawn(drawn: &Drawn) -> String {
    let texts = |texts: Vec<&str>| json::array(texts.into_iter().map(json::quoted));
    let object = Object::new().raw("moves", drawn.moves).raw("action", drawn.action);
    object.raw("articles", texts(drawn.articles())).raw("reasons", texts(drawn.reasons())).end()
}

fn since(since: &Since) -> String {
    Object::new().raw("moves", since.moves).raw("by", json::array(since.by.iter().map(|cause| json::quoted(cause)))).end()
}

const WIDTH: usize = 96;

/// Words in lines of at most `WIDTH` bytes.
fn wrapped(words: &[String]) -> String {
    let mut told = String::new();
    let mut line = 0;
    for word in words {
        let fits = line + 1 + word.len() <= WIDTH;
        told.push(if line > 0 && fits { ' ' } else { '\n' });
        line = if line > 0 && fits { line + 1 } else { 0 } + word.len();
        told += word;
    }
    told + "\n"
}
