use menkhodur::lent::{self, ACTIONS_PART, Given, POSITIONS_PART, Record, Ruled};
use menkhodur::{Board, Counts, Error, Log, Move, Position};

/// The moves of a text with coordinates, as `"b1c3 g1f3"`.
pub fn moves(texts: &str) -> Vec<Move> {
    texts.split_whitespace().map(|text| text.parse().unwrap()).collect()
}

/// The counters after a move, the clock and then the move number. The PGN standard: the clock is the count "since the last pawn advance or
/// capturing move", and the move number "is incremented by one immediately after each move by Black". For a move that is not legal the
/// first are the words of document 01's count, "a move with a pawn on its source, or onto an occupied square", and black moves if he is to
/// move. Both stop at 9,999.
pub fn counters_after(before: &Record, number: u64) -> (u16, u16) {
    let (source, dest) = (number as usize % 64, number as usize / 64 % 64);
    let (from, onto, black) = (before.numbers[source], before.numbers[dest], before.numbers[64] == 1);
    let half = if from == 1 || from == 7 || onto != 0 { 0 } else { before.half_moves + 1 };
    let full = if black { before.full_moves + 1 } else { before.full_moves };
    (half.min(9_999), full.min(9_999))
}

/// The board with these counters.
pub fn counted(board: Board, (half, full): (u16, u16)) -> Board {
    board.half_moves(u64::from(half)).unwrap().full_moves(u64::from(full)).unwrap()
}

/// The board after a move that is neither castling nor en passant, loses no right and sets no en passant file.
pub fn after(board: Board, made: Move) -> Board {
    let (source, dest) = (made.get_source(), made.get_dest());
    let (piece, color) = (board.piece_on(source).unwrap(), board.color_on(source).unwrap());
    let piece = made.get_promotion().unwrap_or(piece);
    let next = board.clear_square(source).piece(dest, piece, color).side_to_move(!color);
    counted(next, counters_after(board.record(), u64::from(made.number())))
}

/// A game of listed moves: before each move the list holds that move and `more`, and at the end it is `last`.
pub fn play(board: Board, texts: &str, more: &str, last: &str) -> Log {
    let (made, more) = (moves(texts), moves(more));
    let listed = |made: Move| [vec![made], more.clone()].concat();
    let lists: Vec<Vec<Move>> = made.iter().copied().map(listed).chain([moves(last)]).collect();
    let mut board = board;
    let mut log = Log::start(&Position { board, in_check: false, list: &lists[0] }).unwrap();
    for (made, list) in made.into_iter().zip(&lists[1..]) {
        board = after(board, made);
        log.make_move(made, &Position { board, in_check: false, list }).unwrap();
    }
    log
}

/// Parts that the test keeps, filled so that a stray write shows.
#[derive(Clone, PartialEq, Eq)]
pub struct Parts {
    pub actions: Vec<u8>,
    pub positions: Vec<u8>,
    pub counts: Counts,
}

impl Parts {
    pub fn unused() -> Parts {
        Parts { actions: vec![0xA5; ACTIONS_PART], positions: vec![0xA5; POSITIONS_PART], counts: Counts::default() }
    }

    pub fn start(record: &Record, list: &[u16]) -> Parts {
        let mut parts = Parts::unused();
        parts.counts = lent::game_start(&parts.actions, &mut parts.positions, Given { record, in_check: 0, list }).unwrap();
        parts
    }

    /// Whole parts with a log's used bytes.
    pub fn of(log: &Log) -> Parts {
        let mut parts = Parts::unused();
        parts.actions[..log.used_actions().len()].copy_from_slice(log.used_actions());
        parts.positions[..log.used_positions().len()].copy_from_slice(log.used_positions());
        parts.counts = log.counts();
        parts
    }

    pub fn make_move(&mut self, number: u64, next: Given<'_>) -> Result<Counts, Error> {
        lent::game_make_move(&mut self.actions, &mut self.positions, self.counts, number, next)
    }

    pub fn offer_draw(&mut self, colour: u8) -> Result<Counts, Error> {
        lent::game_offer_draw(&mut self.actions, &self.positions, self.counts, colour)
    }

    pub fn resign(&mut self, colour: u8) -> Result<Counts, Error> {
        lent::game_resign(&mut self.actions, &self.positions, self.counts, colour)
    }

    pub fn accept_draw(&mut self) -> Result<Counts, Error> {
        lent::game_accept_draw(&mut self.actions, &self.positions, self.counts)
    }

    pub fn declare_draw(&mut self) -> Result<Counts, Error> {
        lent::game_declare_draw(&mut self.actions, &self.positions, self.counts)
    }

    pub fn result(&self) -> Result<u8, Error> {
        lent::game_result(&self.actions, &self.positions, self.counts)
    }

    pub fn can_declare_draw(&self) -> Result<bool, Error> {
        lent::game_can_declare_draw(&self.actions, &self.positions, self.counts)
    }

    pub fn can_claim_by_laws(&self) -> Result<bool, Error> {
        lent::game_can_claim_by_laws(&self.actions, &self.positions, self.counts)
    }

    pub fn ruling(&self) -> Result<Ruled, Error> {
        lent::game_ruling(&self.actions, &self.positions, self.counts)
    }

    /// Asks for the same refusal of every query.
    pub fn refuses_queries(&self, want: Error) {
        assert_eq!(self.result(), Err(want));
        assert_eq!(self.can_declare_draw(), Err(want));
        assert_eq!(self.can_claim_by_laws(), Err(want));
        assert_eq!(self.ruling(), Err(want));
    }

    /// Asks for a refusal that leaves every byte of both parts.
    pub fn refuses(&mut self, want: Error, call: impl FnOnce(&mut Parts) -> Result<Counts, Error>) {
        let before = self.clone();
        assert_eq!(call(self), Err(want));
        assert!(*self == before, "{want}: a refused call has changed the log");
    }

    /// Asks for the same refusal of every call that appends.
    pub fn refuses_all(&mut self, want: Error) {
        let next = Given { record: &empty(), in_check: 0, list: &[] };
        self.refuses(want, |parts| parts.make_move(1153, next));
        self.refuses(want, |parts| parts.offer_draw(0));
        self.refuses(want, |parts| parts.resign(1));
        self.refuses(want, Parts::accept_draw);
        self.refuses(want, Parts::declare_draw);
    }
}

/// Numbers that look random and are the same each time.
pub struct Numbers(pub u64);

impl Numbers {
    pub fn below(&mut self, bound: u64) -> u64 {
        self.0 ^= self.0 << 13;
        self.0 ^= self.0 >> 7;
        self.0 ^= self.0 << 17;
        self.0 % bound
    }
}

/// The record of an empty board, white to move, with the counters 0 and 1.
pub fn empty() -> Record {
    Record::from([0; 68])
}

/// A record in range.
pub fn random_record(numbers: &mut Numbers) -> Record {
    let bounds = |place: usize| [13, 2, 4, 4, 9][usize::max(place, 63) - 63];
    let men = std::array::from_fn(|place| numbers.below(bounds(place)) as u8);
    Record { numbers: men, half_moves: numbers.below(10_000) as u16, full_moves: 1 + numbers.below(9_999) as u16 }
}

/// Records that are out of range in one of their 70 numbers alone, by one and by as much as the number can.
pub fn out_of_range(good: Record) -> impl Iterator<Item = Record> {
    let numbers = (0..68).flat_map(move |place| {
        let over = [13, 2, 4, 4, 9][usize::max(place, 63) - 63];
        [over, 255].map(|number| {
            let mut record = good;
            record.numbers[place] = number;
            record
        })
    });
    numbers.chain(bad_counters(good))
}

/// The record with each of some counters that are out of range.
pub fn bad_counters(good: Record) -> [Record; 5] {
    let half = |half_moves: u16| Record { half_moves, ..good };
    let full = |full_moves: u16| Record { full_moves, ..good };
    [half(10_000), half(65_535), full(0), full(10_000), full(65_535)]
}
