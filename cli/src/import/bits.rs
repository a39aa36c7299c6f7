//! Both databases have signed numbers only: one of 64 bits is kept with its bits.

pub fn signed(number: u64) -> i64 {
    number as i64
}

pub fn unsigned(number: i64) -> u64 {
    number as u64
}
