//! Two threads of one watch, and what its reports were in many runs.

use std::io;
use wullaphi::{thread, Watch, WatchReport};

/// How often a report was what.
#[derive(Debug, Default, PartialEq, Eq)]
pub struct Runs {
    pub found: usize,
    pub none: usize,
    pub undecided: usize,
}

impl Runs {
    /// Of so many runs.
    pub fn of(runs: usize, run: impl Fn() -> WatchReport) -> Runs {
        let mut counts = Runs::default();
        for _ in 0..runs {
            match run() {
                WatchReport::Found(_) => counts.found += 1,
                WatchReport::Nothing => counts.none += 1,
                WatchReport::Undecided(_) => counts.undecided += 1,
            }
        }
        counts
    }
}

/// What is reported of ada, who does the one, and ben, who does the other, with what they share.
pub fn two<T: Sync>(
    shared: T,
    ada: impl Fn(&T) + Send + Sync,
    ben: impl Fn(&T) + Send + Sync,
) -> WatchReport {
    let watch = Watch::new(&["ada", "ben"]).unwrap();
    let entered = watch.enter();
    thread::scope(|scope| -> io::Result<()> {
        let start = |name: &str| thread::Builder::new().name(name.into());
        start("ada").spawn_scoped(&scope, || ada(&shared))?;
        start("ben").spawn_scoped(&scope, || ben(&shared))?;
        Ok(())
    })
    .unwrap();
    drop(entered);
    watch.report()
}
