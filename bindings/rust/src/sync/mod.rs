//! The names of [`std::sync`], whose orders are seen by the watch of the threads that use them.
//!
//! | What | Comes before |
//! |---|---|
//! | the release of a [`Mutex`] | each later lock of it |
//! | the release of a writer of an [`RwLock`] | each later read and write; that of a reader: each later write |
//! | the call that ran in a [`Once`] | the return of each call that found it done |
//! | all calls of `wait` at a [`Barrier`] | the return of each of them |
//! | an item's `send` | its receive |
//! | in a channel with room for N the k-th receive | the end of the (k+N)-th send |
//!
//! A [`Condvar`] adds none: whoever notifies has had the lock, and whoever has waited gets it again. A stamp is made
//! before what it goes along with is let go, and taken after that was got. Order that would be too much is left out,
//! such as that of two who send into one channel: it would hide a moment that could have been.
//!
//! Everything else of `std::sync` keeps its name here, and orders nothing: atomics are not seen.

mod barrier;
mod bounded;
mod condvar;
pub mod mpsc;
mod mutex;
mod once;
mod rwlock;

pub use barrier::{Barrier, BarrierWaitResult};
pub use condvar::Condvar;
pub use mutex::{Mutex, MutexGuard};
pub use once::Once;
pub use rwlock::{RwLock, RwLockReadGuard, RwLockWriteGuard};
pub use std::sync::{
    atomic, Arc, LockResult, PoisonError, TryLockError, TryLockResult, WaitTimeoutResult, Weak,
};
