//! The archive keeps nothing between calls, so what is owned can be sent and what is shared can be asked.

use crate::common::play;
use menkhodur::lent::Record;
use menkhodur::{ALL_COLORS, Action, Actions, Board, Error, GameResult, Log, Move, Position, Positions, Reason, Roll, Ruling, Square};
use menkhodur::{GamePositions, Judgement, Laws, Lent, MoveText, PageReader, Played, Report, Unplayed, Wrong};
use std::thread;

#[test]
fn everything_is_send_and_sync() {
    fn both<T: Send + Sync + 'static>() {}
    both::<Board>();
    both::<Record>();
    both::<Move>();
    both::<Square>();
    both::<Log>();
    both::<Action>();
    both::<Roll>();
    both::<GameResult>();
    both::<Ruling>();
    both::<PageReader>();
    both::<Report>();
    both::<Lent>();
    both::<Laws>();
    both::<Judgement>();
    both::<Wrong>();
    both::<MoveText<'static>>();
    both::<Played<'static>>();
    both::<Unplayed<Error>>();
    both::<GamePositions<'static, ()>>();
    both::<Error>();
    both::<Position<'static>>();
    both::<Actions<'static>>();
    both::<Positions<'static>>();
    let _: Box<dyn std::error::Error + Send + Sync> = Error::GameOver.into();
}

#[test]
fn one_log_is_asked_by_many() {
    let log = play(Board::default(), &"b1c3 b8c6 c3b1 c6b8 ".repeat(3), "", "b1c3");
    thread::scope(|scope| {
        for _ in 0..4 {
            scope.spawn(|| {
                for _ in 0..50 {
                    assert_eq!((log.result(), log.can_declare_draw(), log.can_claim_by_laws()), (None, true, true));
                    assert_eq!(log.ruling().claim, Some(Reason::EqualPositions));
                }
            });
        }
    });
}

#[test]
fn many_make_their_own() {
    let workers = ALL_COLORS.map(|color| {
        thread::spawn(move || {
            let mut log = play(Board::default(), "b1c3 b8c6", "", "c3b1");
            log.resign(color).unwrap();
            log
        })
    });
    let results = workers.map(|worker| worker.join().unwrap().result());
    assert_eq!(results, [Some(GameResult::WhiteResigns), Some(GameResult::BlackResigns)]);
}

/// The two parts have over 2,400,000 bytes: a thread with an eighteenth of that would be gone if they ever lay on its stack.
#[test]
fn a_log_does_not_lie_on_the_stack() {
    let small = thread::Builder::new().stack_size(128 * 1024);
    let worker = small.spawn(|| {
        let log = play(Board::default(), "b1c3 b8c6", "", "c3b1");
        let copy = log.clone();
        Log::from_parts(copy.used_actions(), copy.used_positions(), copy.counts()) == Ok(log)
    });
    assert!(worker.unwrap().join().unwrap());
}

/// A report puts 25,000 bytes there, as the header says, and the rooms are the caller's.
#[test]
fn a_report_needs_little_of_the_stack() {
    let workers = [(); 2].map(|()| {
        let small = thread::Builder::new().stack_size(64 * 1024);
        let report = || PageReader::new().report(&b"K w - -\n".repeat(4_096)).map(|(_, report)| report);
        small.spawn(report).unwrap()
    });
    for worker in workers {
        let report = worker.join().unwrap().unwrap();
        assert_eq!((report.accepted, report.repeated), (4_096, 4_095));
    }
}
