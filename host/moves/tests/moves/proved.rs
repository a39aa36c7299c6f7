//! The archive's lists, which are proved: those of this package are the same, also of records that no game has and that other programs do not
//! take.

use crate::common::{games, odd};
use menkhodur::lent::{self, Given, Judged, MAX_LIST, Record};
use menkhodur::{Error, Lent};

fn check(records: &[Record]) {
    for record in records {
        let (mut list, mut room) = (Lent::new(), [0; MAX_LIST]);
        let listed = menkhodur_moves::legal(record, &mut list);
        let length = lent::legal_list(record, &mut room);
        assert_eq!(length, listed.map(|()| list.len()), "{record:?}");
        let Ok(entries) = length else {
            assert_eq!(length, Err(Error::ListOutOfRange));
            continue;
        };
        let in_check = u8::from(menkhodur_moves::in_check(record));
        assert_eq!(list.as_slice(), &room[..entries], "{record:?}");
        let judged = lent::list_judged(Given { record, in_check, list: list.as_slice() });
        assert_eq!(judged, Ok(Judged { in_check, entries, wrong: 0, named: 0 }), "{record:?}");
    }
}

#[test]
fn positions_of_games() {
    check(&games(521_288_629, 1_500));
}

#[test]
fn odd_records() {
    check(&odd(362_436_069, 6_000));
}
