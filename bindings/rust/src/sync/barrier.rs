use crate::party::{self, Marks};
use std::fmt;
use std::sync::{Condvar, Mutex, PoisonError};

/// A [`std::sync::Barrier`]: all that wait come before the return of each of them.
pub struct Barrier {
    threads: usize,
    round: Mutex<Round>,
    is_full: Condvar,
}

/// Who has come, and what the last round left.
struct Round {
    number: usize,
    came: Vec<Marks>,
    left: Marks,
}

/// What [`Barrier::wait`] answers.
#[derive(Debug)]
pub struct BarrierWaitResult(bool);

impl BarrierWaitResult {
    /// Whether this thread is the one of its round that was chosen: the last one.
    pub fn is_leader(&self) -> bool {
        self.0
    }
}

impl Barrier {
    /// A barrier for so many threads. One for none is one for one.
    pub fn new(threads: usize) -> Barrier {
        Barrier {
            threads,
            round: Mutex::new(Round {
                number: 0,
                came: Vec::new(),
                left: Marks::None,
            }),
            is_full: Condvar::new(),
        }
    }

    /// Waits until all have come. The last one takes what each left, and leaves one stamp for all.
    pub fn wait(&self) -> BarrierWaitResult {
        party::meet();
        let mut round = unpoisoned(self.round.lock());
        let is_leader = round.came.len() + 1 >= self.threads;
        if is_leader {
            for marks in std::mem::take(&mut round.came) {
                party::take(&marks);
            }
            round.left = party::left();
            round.number = round.number.wrapping_add(1);
            self.is_full.notify_all();
        } else {
            round.came.push(party::left());
            let number = round.number;
            while round.number == number {
                round = unpoisoned(self.is_full.wait(round));
            }
            party::take(&round.left);
        }
        BarrierWaitResult(is_leader)
    }
}

/// No thread panics with the lock of a barrier.
fn unpoisoned<G>(got: Result<G, PoisonError<G>>) -> G {
    got.unwrap_or_else(PoisonError::into_inner)
}

impl fmt::Debug for Barrier {
    fn fmt(&self, f: &mut fmt::Formatter<'_>) -> fmt::Result {
        f.debug_struct("Barrier").finish_non_exhaustive()
    }
}
