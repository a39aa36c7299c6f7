use menkhodur::lent::{self, Record};
use menkhodur::{Board, Lent, Move};

/// The six positions whose counts of leaves are known: the start, "kiwipete", and four more, as the chess programming wiki numbers them.
pub const USUAL: [&str; 6] = [
    "rnbqkbnr/pppppppp/8/8/8/8/PPPPPPPP/RNBQKBNR w KQkq - 0 1",
    "r3k2r/p1ppqpb1/bn2pnp1/3PN3/1p2P3/2N2Q1p/PPPBBPPP/R3K2R w KQkq - 0 1",
    "8/2p5/3p4/KP5r/1R3p1k/8/4P1P1/8 w - - 0 1",
    "r3k2r/Pppp1ppp/1b3nbN/nP6/BBP1P3/q4N2/Pp1P2PP/R2Q1RK1 w kq - 0 1",
    "rnbq1k1r/pp1Pbppp/2p5/8/2B5/8/PPP1NnPP/RNBQK2R w KQ - 1 8",
    "r4rk1/1pp1qppp/p1np1n2/2b1p1B1/2B1P1b1/P1NP1N2/1PP1QPPP/R4RK1 w - - 0 10",
];

pub fn read(fen: &str) -> Record {
    lent::fen_read(fen.as_bytes()).unwrap()
}

/// The legal moves, as the package lists them.
pub fn legal(record: &Record) -> Vec<u16> {
    let mut list = Lent::new();
    menkhodur_moves::legal(record, &mut list).unwrap();
    list.as_slice().to_vec()
}

/// The legal moves, as the archive lists them.
pub fn proved(record: &Record) -> Vec<u16> {
    Board::from_record(record).unwrap().legal_moves().unwrap().as_slice().to_vec()
}

/// Moves as coordinates, sorted as texts.
pub fn texts(list: &[u16]) -> String {
    let mut texts: Vec<String> = list.iter().map(|number| Move::from_number((*number).into()).unwrap().to_string()).collect();
    texts.sort();
    texts.join(" ")
}

/// Numbers that look random and are the same each time.
pub struct Numbers(pub u64);

impl Numbers {
    pub fn below(&mut self, bound: usize) -> usize {
        self.0 ^= self.0 << 13;
        self.0 ^= self.0 >> 7;
        self.0 ^= self.0 << 17;
        (self.0 % bound as u64) as usize
    }
}

/// The records of games of random moves from the usual positions, so many in all.
pub fn games(seed: u64, count: usize) -> Vec<Record> {
    let (mut numbers, mut records) = (Numbers(seed), Vec::new());
    while records.len() < count {
        let mut record = read(USUAL[numbers.below(6)]);
        for _ in 0..100 {
            records.push(record);
            let list = legal(&record);
            if list.is_empty() {
                break;
            }
            record = lent::board_after(&record, list[numbers.below(list.len())].into()).unwrap();
        }
    }
    records.truncate(count);
    records
}

/// Records in range with men of any kind anywhere, few or many: with no king or several, pawns on any rank, rights and files that mean
/// nothing.
pub fn odd(seed: u64, count: usize) -> Vec<Record> {
    let mut numbers = Numbers(seed);
    let mut record = || {
        let empty = 13 + numbers.below(80);
        let mut men: [u8; 68] = std::array::from_fn(|_| numbers.below(empty) as u8).map(|man| if man > 12 { 0 } else { man });
        for (place, bound) in [(64, 2), (65, 4), (66, 4), (67, 9)] {
            men[place] = numbers.below(bound) as u8;
        }
        // Often something is at home, and often there are pawns to take in passing.
        for (square, man) in [(4, 6), (0, 4), (7, 4), (60, 12), (56, 10), (63, 10)] {
            men[square] = if numbers.below(3) > 0 { man } else { men[square] };
        }
        for man in &mut men[24..40] {
            *man = if numbers.below(4) == 0 { [1, 7][numbers.below(2)] } else { *man };
        }
        Record::from(men)
    };
    (0..count).map(|_| record()).collect()
}
