//! The legal moves, by rows from the Laws' sentences and by counts that are known; lists that are judged; and logs that need nothing from a host.

use crate::common::{Numbers, moves, out_of_range};
use menkhodur::lent::{self, Given, Judged, MAX_LIST, Record};
use menkhodur::{Board, Error, GameResult, Judgement, Laws, Lends, Lent, Log, MAX_MOVE, Move, MoveText, Position, Wrong};

fn board(fen: &str) -> Board {
    Board::from_fen(fen).unwrap()
}

/// Moves in rising order of their numbers.
fn sorted(texts: &str) -> Vec<Move> {
    let mut list = moves(texts);
    list.sort_unstable_by_key(|listed| listed.number());
    list
}

/// A queen on each square of the edge: 288 moves.
fn queens() -> Board {
    board("QQQQQQQQ/Q6Q/Q6Q/Q6Q/Q6Q/Q6Q/Q6Q/QQQQQQQQ w - -")
}

/// Asks both layers for all moves of each board, and for whether it is in check.
fn check(rows: &[(&str, bool, &str)]) {
    for &(fen, in_check, texts) in rows {
        let (board, want) = (board(fen), sorted(texts));
        let legal = board.legal_moves().unwrap();
        assert_eq!((legal.moves(), board.in_check()), (&want[..], in_check), "{fen}");
        let mut room = [0xA5A5; MAX_LIST];
        assert_eq!(lent::legal_list(board.record(), &mut room), Ok(want.len()));
        assert_eq!((&room[..want.len()], lent::in_check(board.record())), (legal.as_slice(), Ok(in_check)));
        assert!(room[want.len()..].iter().all(|&free| free == 0xA5A5));
        let judged = Judgement { in_check, entries: want.len(), wrong: None };
        assert_eq!(Position { board, in_check, list: &want }.judged(), Ok(judged));
        let byte = Position { board, in_check: !in_check, list: &want };
        assert_eq!(byte.judged(), Ok(Judgement { wrong: Some(Wrong::InCheck), ..judged }));
    }
}

#[test]
fn no_move_leaves_the_king_attacked() {
    check(&[
        // Pinned along a file, a rank and both diagonals.
        ("4r2k/8/8/8/8/8/4N3/4K3 w - -", false, "e1d1 e1f1 e1d2 e1f2"),
        ("7k/8/8/8/8/8/8/K1B4r w - -", false, "a1b1 a1a2 a1b2"),
        ("7k/8/5b2/8/8/2N5/8/K7 w - -", false, "a1b1 a1a2 a1b2"),
        ("7k/8/8/8/7b/8/5Q2/4K3 w - -", false, "e1d1 e1f1 e1d2 e1e2 f2g3 f2h4"),
        // Two men give check; the line goes on behind the king; mate, stalemate, and no king at all.
        ("4r2k/8/8/8/8/3n4/5P2/4K3 w - -", true, "e1d1 e1f1 e1d2"),
        ("4r2k/8/8/8/4K3/8/8/8 w - -", true, "e4d3 e4f3 e4d4 e4f4 e4d5 e4f5"),
        ("R5k1/5ppp/8/8/8/8/8/6K1 b - -", true, ""),
        ("k7/2Q5/8/8/8/8/8/6K1 b - -", false, ""),
        ("7k/8/8/8/8/8/8/N6r w - -", false, "a1c2 a1b3"),
    ]);
}

#[test]
fn pawns_step_capture_pass_and_promote() {
    check(&[
        ("8/8/8/3Pp3/8/8/8/K6k w - e6", false, "a1b1 a1a2 a1b2 d5d6 d5e6"),
        ("8/8/8/3Pp3/8/8/8/K6k w - -", false, "a1b1 a1a2 a1b2 d5d6"),
        ("8/8/8/K2Pp2r/8/8/8/7k w - e6", false, "a5a4 a5b4 a5b5 a5a6 a5b6 d5d6"),
        ("8/8/8/2k5/3Pp3/8/8/7K b - d3", true, "e4d3 c5b4 c5c4 c5d4 c5b5 c5d5 c5b6 c5c6 c5d6"),
        ("1n6/P7/8/8/8/8/7k/K7 w - -", false, "a7a8n a7a8b a7a8r a7a8q a7b8n a7b8b a7b8r a7b8q a1b1 a1a2 a1b2"),
        ("8/8/8/8/8/n7/PP6/K6k w - -", false, "b2a3 b2b3 b2b4"),
        ("P6k/8/8/8/8/8/8/P7 w - -", false, "a1a2"),
    ]);
}

#[test]
fn castling_asks_for_the_way_of_the_king() {
    let rows = [
        ("4k3/8/8/8/8/8/8/R3K2R w KQ -", "e1g1 e1c1"),
        ("r3k2r/8/8/8/8/8/8/4K3 b kq -", "e8g8 e8c8"),
        ("4r2k/8/8/8/8/8/8/R3K2R w KQ -", ""),
        ("5r1k/8/8/8/8/8/8/R3K2R w KQ -", "e1c1"),
        ("6r1/7k/8/8/8/8/8/R3K2R w KQ -", "e1c1"),
        ("2r4k/8/8/8/8/8/8/R3K2R w KQ -", "e1g1"),
        ("1r5k/8/8/8/8/8/8/R3K2R w KQ -", "e1g1 e1c1"),
        ("r6k/8/8/8/8/8/8/R3K2R w KQ -", "e1g1 e1c1"),
        ("4k3/8/8/8/8/8/8/RN2K2R w KQ -", "e1g1"),
        ("4k3/8/8/8/8/8/8/R3K2R w K -", "e1g1"),
        ("4k3/8/8/8/8/8/8/4K2R w KQ -", "e1g1"),
    ];
    for (fen, texts) in rows {
        let legal = board(fen).legal_moves().unwrap();
        let far = |made: &&Move| ["e1g1", "e1c1", "e8g8", "e8c8"].contains(&made.to_string().as_str());
        assert_eq!(legal.moves().iter().filter(far).copied().collect::<Vec<_>>(), sorted(texts), "{fen}");
    }
}

/// As the chess programming wiki tells them.
#[test]
fn known_counts_of_leaves() {
    fn leaves(board: Board, depth: usize) -> usize {
        let legal = board.legal_moves().unwrap();
        if depth == 1 { legal.len() } else { legal.moves().iter().map(|made| leaves(board.after(*made), depth - 1)).sum() }
    }
    let rows = [
        ("rnbqkbnr/pppppppp/8/8/8/8/PPPPPPPP/RNBQKBNR w KQkq -", [20, 400, 8_902]),
        ("r3k2r/p1ppqpb1/bn2pnp1/3PN3/1p2P3/2N2Q1p/PPPBBPPP/R3K2R w KQkq -", [48, 2_039, 97_862]),
        ("8/2p5/3p4/KP5r/1R3p1k/8/4P1P1/8 w - -", [14, 191, 2_812]),
        ("r3k2r/Pppp1ppp/1b3nbN/nP6/BBP1P3/q4N2/Pp1P2PP/R2Q1RK1 w kq -", [6, 264, 9_467]),
        ("rnbq1k1r/pp1Pbppp/2p5/8/2B5/8/PPP1NnPP/RNBQK2R w KQ -", [44, 1_486, 62_379]),
        ("r4rk1/1pp1qppp/p1np1n2/2b1p1B1/2B1P1b1/P1NP1N2/1PP1QPPP/R4RK1 w - -", [46, 2_079, 89_890]),
    ];
    for (fen, counts) in rows {
        assert_eq!([1, 2, 3].map(|depth| leaves(board(fen), depth)), counts, "{fen}");
    }
}

#[test]
fn the_first_thing_that_is_wrong_is_told() {
    let (board, made) = (Board::default(), |text: &str| text.parse::<Move>().unwrap());
    let legal = board.legal_moves().unwrap();
    let judge = |list: &[Move], in_check: bool| Position { board, in_check, list }.judged().unwrap();
    let mut numbers = Numbers(1);
    for _ in 0..50 {
        let mut list = legal.moves().to_vec();
        (0..20).for_each(|place| list.swap(place, numbers.below(20) as usize));
        assert_eq!(judge(&list, false), Judgement { in_check: false, entries: 20, wrong: None });
        assert_eq!(judge(&list, true).wrong, Some(Wrong::InCheck));
        let gone = list.pop().unwrap();
        assert_eq!(judge(&list, true).wrong, Some(Wrong::Missing(gone)));
        list.push(list[7]);
        assert_eq!(judge(&list, true).wrong, Some(Wrong::Twice(list[7])));
        list.push(made("e2e5"));
        list.push(made("e1g1"));
        assert_eq!(judge(&list, true).wrong, Some(Wrong::NotLegal(made("e2e5"))));
    }
    assert_eq!(judge(&[], false).wrong, Some(Wrong::Missing(made("b1a3"))));
    let words = [Wrong::NotLegal(made("e2e5")), Wrong::Twice(made("e2e4")), Wrong::Missing(made("g1f3")), Wrong::InCheck]
        .map(|wrong| wrong.to_string());
    assert_eq!(words[0], "the listed move e2e5 is not legal");
    assert_eq!(words[1], "the move e2e4 is listed twice");
    assert_eq!(words[2], "the legal move g1f3 is missing");
    assert_eq!(words[3], "it is said wrongly whether the side to move is in check");
}

#[test]
fn every_legal_move_has_a_name_in_either_form() {
    let (mut numbers, mut board) = (Numbers(7), Board::default());
    for _ in 0..400 {
        let legal = board.legal_moves().unwrap();
        for &made in legal.moves() {
            let name = board.name(legal.moves(), made).unwrap();
            assert_eq!(board.read_san(legal.moves(), name), Ok(made));
            let name = board.name_standard(legal.moves(), made).unwrap();
            assert_eq!(board.read_san_standard(legal.moves(), name), Ok(made));
        }
        let next = legal.moves().get(numbers.below(legal.len().max(1) as u64) as usize);
        board = next.map_or_else(Board::default, |made| board.after(*made));
    }
}

/// Numbers out of range, in the order of the checks, and more legal moves than a list may have.
#[test]
fn refusals() {
    let mut room = [0xA5A5; MAX_LIST];
    for bad in out_of_range(*Board::default().record()) {
        assert_eq!((lent::in_check(&bad), lent::legal_list(&bad, &mut room)), (Err(Error::OutOfRange), Err(Error::OutOfRange)));
        assert_eq!(lent::list_judged(Given { record: &bad, in_check: 2, list: &[MAX_MOVE + 1] }), Err(Error::OutOfRange));
    }
    let (start, many) = (*Board::default().record(), *queens().record());
    let judge = |record: &Record, in_check: u8, list: &[u16]| lent::list_judged(Given { record, in_check, list });
    assert_eq!(judge(&start, 2, &[MAX_MOVE + 1]), Err(Error::OutOfRange));
    for list in [&[MAX_MOVE + 1][..], &[0; 256]] {
        assert_eq!(judge(&start, 1, list), Err(Error::ListOutOfRange));
    }
    assert_eq!(judge(&start, 1, &[0; 255]), Ok(Judged { in_check: 0, entries: 20, wrong: 1, named: 0 }));
    assert_eq!((judge(&many, 0, &[]), lent::legal_list(&many, &mut room)), (Err(Error::ListOutOfRange), Err(Error::ListOutOfRange)));
    for length in 0..20 {
        assert_eq!(lent::legal_list(&start, &mut room[..length]), Err(Error::ListTooShort { moves: 20 }));
    }
    assert!(room.iter().all(|&free| free == 0xA5A5), "a refused call has written");
    assert_eq!(queens().legal_moves(), Err(Error::ListOutOfRange));
    assert_eq!(Position { board: queens(), in_check: false, list: &[] }.judged(), Err(Error::ListOutOfRange));
    assert_eq!(Log::from_board(queens()), Err(Error::ListOutOfRange));
    let mut list = Lent::new();
    list.push(1).unwrap();
    assert_eq!((Laws.lend(&many, b"", &mut list), list.len()), (Err(Error::ListOutOfRange), 0));
}

// ---- Logs that need nothing from a host

fn log_of(texts: &str) -> Log {
    let mut log = Log::from_board(Board::default()).unwrap();
    texts.split_whitespace().for_each(|text| assert!(log.play_san(text).is_ok(), "{text}"));
    assert!(log.positions().all(|position| position.judged().unwrap().wrong.is_none()));
    log
}

/// Morphy against the Duke of Brunswick and Count Isouard, Paris 1858.
const OPERA: &str = "e4 e5 Nf3 d6 d4 Bg4 dxe5 Bxf3 Qxf3 dxe5 Bc4 Nf6 Qb3 Qe7 Nc3 c6 Bg5 b5 Nxb5 cxb5 Bxb5+ Nbd7 O-O-O Rd8 Rxd7 Rxd7 Rd1 Qe6 \
                     Bxd7+ Nxd7 Qb8+ Nxb8 Rd8#";
const MATED: &str = "1n1Rkb1r/p4ppp/4q3/4p1B1/4P3/8/PPP2PPP/2K5 b k - 1 17";

#[test]
fn a_game_is_played_from_its_texts_alone() {
    let mut log = log_of(OPERA);
    assert_eq!(log.current_position().to_fen_full(), MATED);
    assert_eq!((log.result(), log.in_check()), (Some(GameResult::WhiteCheckmates), true));
    assert_eq!(log.play_san("Ke7"), Err(Error::GameOver));
    let last = MoveText::new(OPERA).positions(Board::default(), Laws).last().unwrap().unwrap();
    assert_eq!(last.board.to_fen_full(), MATED);
    // The shortest stalemate with all of the moves known, by Loyd.
    let loyd = log_of("e3 a5 Qh5 Ra6 Qxa5 h5 h4 Rah6 Qxc7 f6 Qxd7+ Kf7 Qxb7 Qd3 Qxb8 Qh7 Qxc8 Kg6 Qe6");
    assert_eq!((loyd.result(), loyd.in_check()), (Some(GameResult::Stalemate), false));
}

#[test]
fn positions_of_such_a_log_are_equal_when_they_repeat() {
    let round = "Nf3 Nf6 Ng1 Ng8 ";
    assert!(!log_of(round).can_declare_draw());
    assert!(log_of(&round.repeat(2)).can_declare_draw());
}

#[test]
fn a_text_that_is_refused_leaves_the_log() {
    let mut log = log_of("e4 e5");
    let before = log.clone();
    for text in ["e4", "Ke3", "O-O", "Nd4", "", "Nf3 ", "e1g1"] {
        assert_eq!(log.play_san(text), Err(Error::InvalidSanMove), "{text}");
        assert!(log == before);
    }
    // A host has lent a list without the move: it is legal, and is not listed.
    let list = moves("b1c3");
    let mut lent = Log::start(&Position { board: Board::default(), in_check: false, list: &list }).unwrap();
    assert_eq!(lent.play_san("e4"), Err(Error::MoveNotListed));
    assert_eq!(lent.play_san("Nc3"), Ok(list[0]));
    let told: Vec<_> = lent.positions().map(|position| position.judged().unwrap().wrong).collect();
    assert_eq!(told, [Some(Wrong::Missing("b1a3".parse().unwrap())), None]);
}
