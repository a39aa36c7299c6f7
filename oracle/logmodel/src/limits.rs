//! The papers' numbers of the log, in one place: document 01's, the limits those of document 02, order 11, the counters those of order 12.

pub const MOST_ACTIONS: usize = 8_192;
pub const MOST_MOVES: usize = 4_096;
pub const LONGEST_LIST: usize = 255;
pub const LARGEST_MOVE: u64 = 28_671;
pub const LAST_COUNT: u16 = 9_999;

pub const RECORD: usize = 68;
/// The two counters, two bytes each.
pub const COUNTERS: usize = 4;
pub const ACTION: usize = 4;
pub const POSITION: usize = RECORD + COUNTERS + 2 + 2 * LONGEST_LIST;

/// The two lent parts.
pub const ACTIONS_PART: usize = ACTION * MOST_ACTIONS;
pub const POSITIONS_PART: usize = POSITION * (MOST_MOVES + 1);

/// Bytes that `replay` keeps behind each part.
pub const SPARE: usize = 100;
/// The longest list that `replay` reads: one entry too many, so that 6 can be seen.
pub const LONGEST_READ: usize = LONGEST_LIST + 1;
