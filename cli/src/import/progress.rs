//! How far an import has come, told once a second if someone looks on: games, positions a second, and of files whose size is known the share that
//! is read and the time that is left.

use crate::told;
use std::io::{self, IsTerminal};
use std::time::{Duration, Instant};

pub struct Progress {
    began: Instant,
    next: Option<Instant>,
    /// The bytes of all inputs, and those that were read.
    all: Option<u64>,
    read: u64,
}

const EVERY: Duration = Duration::from_secs(1);

impl Progress {
    /// `all` are the bytes of all inputs, if they are known.
    pub fn new(all: Option<u64>) -> Progress {
        let began = Instant::now();
        Progress { began, next: io::stderr().is_terminal().then(|| began + EVERY), all, read: 0 }
    }

    /// So many bytes more were read.
    pub fn read(&mut self, bytes: usize) {
        self.read += bytes as u64;
    }

    pub fn so_far(&mut self, games: u64, positions: u64) {
        let Some(next) = self.next else { return };
        let now = Instant::now();
        if now >= next {
            told::tell(&[self.words(now - self.began, games, positions).as_bytes()]);
            self.next = Some(now + EVERY);
        }
    }

    fn words(&self, took: Duration, games: u64, positions: u64) -> String {
        let rate = positions as f64 / took.as_secs_f64().max(0.001);
        let said = format!("import: {} so far, {rate:.0} positions a second", told::counted(games, "game"));
        match self.all {
            Some(all) if all > 0 && self.read > 0 => {
                let share = (self.read as f64 / all as f64).min(1.0);
                let left = took.as_secs_f64() * (1.0 - share) / share;
                format!("{said}, {:.0} % of {:.0} MB, {} left", 100.0 * share, all as f64 / 1e6, clock(left))
            }
            _ => said,
        }
    }
}

/// `5 s`, `2:05` or `1:00:05`.
fn clock(seconds: f64) -> String {
    let seconds = seconds.ceil() as u64;
    match seconds {
        0..60 => format!("{seconds} s"),
        60..3_600 => format!("{}:{:02}", seconds / 60, seconds % 60),
        _ => format!("{}:{:02}:{:02}", seconds / 3_600, seconds / 60 % 60, seconds % 60),
    }
}

#[cfg(test)]
mod tests {
    use super::*;

    #[test]
    fn games_a_rate_a_share_and_the_time_left() {
        let mut progress = Progress { began: Instant::now(), next: None, all: Some(200_000_000), read: 0 };
        let words = |progress: &Progress, seconds: u64| progress.words(Duration::from_secs(seconds), 3, 5_000_000);
        assert_eq!(words(&progress, 10), "import: 3 games so far, 500000 positions a second");
        progress.read(50_000_000);
        assert_eq!(words(&progress, 10), "import: 3 games so far, 500000 positions a second, 25 % of 200 MB, 30 s left");
        assert!(words(&progress, 100).ends_with("25 % of 200 MB, 5:00 left"));
        assert!(words(&progress, 2_000).ends_with("25 % of 200 MB, 1:40:00 left"));
        progress.all = None;
        assert_eq!(words(&progress, 0), "import: 3 games so far, 5000000000 positions a second");
    }
}
