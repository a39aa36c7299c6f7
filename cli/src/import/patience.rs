//! For how long a store waits for others: for one who has locked it, or for a server that is away.

use std::thread;
use std::time::{Duration, Instant};

/// A minute, or as many seconds as the environment says, so that tests need not wait so long.
pub fn patience() -> Duration {
    let said = std::env::var("MENKHODUR_PATIENCE").ok().and_then(|seconds| seconds.parse().ok());
    Duration::from_secs(said.unwrap_or(60))
}

/// Does something until it is accepted, refused for good, or refused for too long, with a pause before what was refused is offered again.
pub fn insist<T, E>(pause: Duration, may_pass: impl Fn(&E) -> bool, mut work: impl FnMut() -> Result<T, E>) -> Result<T, E> {
    let began = Instant::now();
    loop {
        match work() {
            Err(trouble) if may_pass(&trouble) && began.elapsed() < patience() => thread::sleep(pause),
            done => return done,
        }
    }
}
