//! `--judge` of `menkhodur show` and `menkhodur ruling`, on logs with faults that are put into their lists and in-check bytes.

use crate::common::{ENTRIES, Folder, IN_CHECK, INITIAL, MOVES, Ran, run};
use crate::made::Made;
use menkhodur::Move;
use menkhodur::lent::POSITION_BYTES;

/// A log with faults.
struct Faulty {
    actions: Vec<u8>,
    positions: Vec<u8>,
}

impl Faulty {
    fn of(made: &Made) -> Faulty {
        let (actions, positions) = made.parts();
        Faulty { actions: actions.to_vec(), positions: positions.to_vec() }
    }

    fn position(&mut self, number: usize) -> &mut [u8] {
        &mut self.positions[POSITION_BYTES * number..][..POSITION_BYTES]
    }

    /// Writes the list of a position anew, as `change` leaves it.
    fn list(mut self, number: usize, change: impl FnOnce(&mut Vec<u16>)) -> Faulty {
        let position = self.position(number);
        let pairs = position[MOVES..].chunks_exact(2).take(position[ENTRIES].into());
        let mut list = pairs.map(|pair| u16::from_le_bytes([pair[0], pair[1]])).collect();
        change(&mut list);
        position[ENTRIES] = list.len().try_into().unwrap();
        position[MOVES..].fill(0);
        list.iter().enumerate().for_each(|(at, one)| position[MOVES + 2 * at..][..2].copy_from_slice(&one.to_le_bytes()));
        self
    }

    fn also(self, number: usize, text: &str) -> Faulty {
        self.list(number, |list| list.push(numbered(text)))
    }

    fn without(self, number: usize, text: &str) -> Faulty {
        self.list(number, |list| list.retain(|one| *one != numbered(text)))
    }

    fn in_check(mut self, number: usize, byte: u8) -> Faulty {
        self.position(number)[IN_CHECK] = byte;
        self
    }

    fn run(&self, words: &[&str]) -> Ran {
        let folder = Folder::new();
        let (a, p) = (folder.file("a", &self.actions), folder.file("p", &self.positions));
        run(&[words, &[a.as_str(), &p]].concat(), b"")
    }

    /// What both commands tell under `judged`, which is the same.
    #[track_caller]
    fn judged(&self) -> (String, i32) {
        let rows = |ran: &Ran| ran.text().split_once("\njudged       ").expect("a row").1.replace("             ", "");
        let [show, ruling] = ["show", "ruling"].map(|command| self.run(&[command, "--judge"]));
        assert_eq!((rows(&show), show.err.as_str(), ruling.err.as_str()), (rows(&ruling), "", ""));
        assert_eq!(ruling.status, 1, "no claim stands");
        (rows(&show), show.status)
    }
}

fn numbered(text: &str) -> u16 {
    Move::from_text(text).unwrap().number()
}

fn played(fen: &str, moves: &str) -> Made {
    let mut made = Made::start(fen);
    if !moves.is_empty() {
        made.play(moves);
    }
    made
}

#[track_caller]
fn see(faulty: &Faulty, positions: usize, wrong: &str) {
    assert_eq!(faulty.judged(), (format!("{positions} positions, 1 of them wrong by the Laws\n{wrong}\n"), 1));
}

#[test]
fn a_log_without_a_fault_is_told_to_be_right() {
    let told = |positions: &str| format!("{positions}: each list has the legal moves, and who is in check is said rightly\n");
    assert_eq!(Faulty::of(&Made::start(INITIAL)).judged(), (told("1 position"), 0));
    // The order of a list does not matter.
    let mate = Faulty::of(&played(INITIAL, "f2f3 e7e5 g2g4 d8h4")).list(0, |list| list.reverse());
    assert_eq!(mate.judged(), (told("5 positions"), 0));
}

#[test]
fn a_pinned_mans_move_is_listed() {
    let pinned = played("7k/4r3/8/8/8/8/4N3/4K3 b - - 0 1", "e7e8 e1d1");
    see(&Faulty::of(&pinned).also(1, "e2c3"), 3, "position 1, after 1... Re8: Nc3 (e2c3) is listed and is not legal");
}

#[test]
fn a_castling_through_check_is_listed() {
    let castles = played("4k3/5r2/8/8/8/8/8/R3K2R w KQ - 0 30", "");
    let faulty = Faulty::of(&castles).also(0, "e1g1");
    let judged = "1 position, 1 of them wrong by the Laws\nposition 0, the start: O-O (e1g1) is listed and is not legal\n";
    assert_eq!(faulty.judged(), (judged.to_string(), 1));
}

#[test]
fn a_knights_move_is_missing() {
    let missing = Faulty::of(&played(INITIAL, "e2e4 e7e5 f1c4")).without(2, "g1f3");
    see(&missing, 4, "position 2, after 1... e5: Nf3 (g1f3) is legal and is not listed");
    // A list without any move.
    let none = Faulty::of(&Made::start(INITIAL)).list(0, Vec::clear);
    assert!(none.judged().0.ends_with("\nposition 0, the start: Na3 (b1a3) is legal and is not listed\n"));
}

#[test]
fn an_entry_comes_twice() {
    let twice = Faulty::of(&played(INITIAL, "e2e4")).also(0, "d2d4");
    see(&twice, 2, "position 0, the start: d4 (d2d4) is listed twice");
}

#[test]
fn a_byte_says_wrongly_who_is_in_check() {
    let quiet = Faulty::of(&played(INITIAL, "e2e4 e7e5")).in_check(1, 1);
    see(&quiet, 3, "position 1, after 1. e4: the side to move is not in check, and is said to be");
    // So a mate is none.
    let mate = Faulty::of(&played(INITIAL, "f2f3 e7e5 g2g4 d8h4")).in_check(4, 0);
    see(&mate, 5, "position 4, after 2... Qh4: the side to move is in check, and is said not to be");
    assert!(mate.run(&["ruling"]).text().contains("\nresult       stalemate, after 4 actions and 4 moves\n"));
}

#[test]
fn what_no_text_names_is_told_in_coordinates() {
    // There is no man on e4.
    let nothing = Faulty::of(&played(INITIAL, "")).also(0, "e4e5");
    assert!(nothing.judged().0.ends_with("\nposition 0, the start: e4e5 is listed and is not legal\n"), "{}", nothing.judged().0);
}

#[test]
fn more_legal_moves_than_a_list_holds_are_told() {
    let mut queens = Faulty::of(&Made::start("QQQQQQQQ/8/8/8/8/8/8/8 w - - 0 1")).list(0, Vec::clear);
    for square in (0..64).filter(|square| square / 8 % 7 == 0 || square % 8 % 7 == 0) {
        queens.position(0)[square] = 5;
    }
    let judged = "1 position, 1 of them wrong by the Laws\nposition 0, the start: it has more than 255 legal moves, which no list holds\n";
    assert_eq!(queens.judged(), (judged.to_string(), 1));
    let object = "\"judged\":{\"position\":0,\"wrong\":null,\"reason\":\"it has more than 255 legal moves, which no list holds\",\"name\":null,\
                  \"coordinates\":null,\"in_check\":null,\"list\":null}}\n";
    assert!(queens.run(&["show", "--judge", "--json"]).text().ends_with(object));
}

/// Four moves with an offer after the second, and two faults.
fn two_faults() -> Faulty {
    let mut made = played(INITIAL, "e2e4 e7e5");
    made.log.offer_draw(menkhodur::Color::White).unwrap();
    made.play("g1f3 b8c6");
    Faulty::of(&made).without(2, "g1h3").in_check(4, 1)
}

const FIRST: &str = "{\"position\":2,\"wrong\":3,\"reason\":\"Nh3 (g1h3) is legal and is not listed\",\"name\":\"Nh3\",\"coordinates\":\"g1h3\",\
                     \"in_check\":false,\"list\":29}";
const SECOND: &str = "{\"position\":4,\"wrong\":4,\"reason\":\"the side to move is not in check, and is said to be\",\"name\":null,\
                      \"coordinates\":null,\"in_check\":false,\"list\":27}";

#[test]
fn json_has_what_is_wrong_with_each_position() {
    let faulty = two_faults();
    let ran = faulty.run(&["show", "--judge", "--json"]);
    let (plain, first, second) = (",\"judged\":null}", format!(",\"judged\":{FIRST}}}"), format!(",\"judged\":{SECOND}}}"));
    // The offer is made in the position that is wrong.
    let owed = [plain, plain, &first, &first, plain, &second];
    assert_eq!((ran.text().lines().count(), ran.status), (owed.len(), 1));
    assert!(ran.text().lines().zip(owed).all(|(line, owed)| line.ends_with(owed)), "{}", ran.text());
    // All else is as without it.
    let cut = |line: &str| format!("{}}}\n", line.split_once(",\"judged\":").unwrap().0);
    assert_eq!(ran.text().lines().map(cut).collect::<String>(), faulty.run(&["show", "--json"]).text());

    let ran = faulty.run(&["ruling", "--judge", "--json"]);
    let judged = format!("\"judged\":{{\"positions\":5,\"wrong\":[{FIRST},{SECOND}]}},");
    assert!(ran.text().contains(&judged), "{}", ran.text());
    assert_eq!(ran.text().replace(&judged, ""), faulty.run(&["ruling", "--json"]).text());
}

#[test]
fn pages_tell_it_too() {
    let told = [
        "position 2, after 1... e5: Nh3 (g1h3) is legal and is not listed",
        "position 4, after 2... Nc6: the side to move is not in check",
    ];
    for command in ["show", "ruling"] {
        let ran = two_faults().run(&[command, "--judge", "--html", "-"]);
        assert!(ran.text().contains("<p>Judged: 5 positions, 2 of them wrong by the Laws.</p>"), "{}", ran.text());
        assert!(told.iter().all(|told| ran.text().contains(&format!("<p class=\"fault\">{told}"))) && ran.status == 1, "{}", ran.text());
        assert!(!two_faults().run(&[command, "--html", "-"]).text().contains("Judged"));
    }
}

#[test]
fn a_claim_over_wrong_lists_has_status_1() {
    let mut made = Made::start(INITIAL);
    made.play("g1f3 g8f6 f3g1 f6g8 g1f3 g8f6 f3g1 f6g8 e2e4");
    let status = |faulty: &Faulty, words: &[&str]| faulty.run(&[&["ruling"], words].concat()).status;
    let (right, wrong) = (Faulty::of(&made), Faulty::of(&made).in_check(9, 1));
    assert_eq!([status(&right, &["--at", "8", "--judge"]), status(&right, &["--judge"])], [0, 1]);
    // The position that is wrong comes later.
    assert_eq!([status(&wrong, &["--at", "8", "--judge"]), status(&wrong, &["--at", "8"])], [0, 0]);
    let start = Faulty::of(&made).also(5, "a7a2");
    assert_eq!([status(&start, &["--at", "8", "--judge"]), status(&start, &["--at", "8"])], [1, 0]);
}

#[test]
fn what_stands_of_a_log_that_is_not_good_is_judged() {
    let mut faulty = two_faults();
    faulty.position(3)[0] = 0;
    let ran = faulty.run(&["show", "--judge"]);
    let judged = "\njudged       3 positions, 1 of them wrong by the Laws\n             position 2, after 1... e5: Nh3 (g1h3) is legal and is not listed\n";
    assert!(ran.text().ends_with(judged) && ran.err.contains(": the log is not good: action 4 does not stand: ") && ran.status == 2);
}

#[test]
fn a_roll_has_no_lists() {
    let ran = run(&["show", "--judge", "-"], &Made::start(INITIAL).log.to_roll());
    assert_eq!((ran.text(), ran.status), ("", 2));
    assert_eq!(ran.err, "menkhodur: --judge is for a log, and a ROLL, which has no lists, was named\n");
}
