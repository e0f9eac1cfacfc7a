//! Wullaphi for Rust: the probe of a process, the checker, and the report of a text.
//!
//! Wullaphi finds bad moments in concurrent programs, such as two processes that both hold the only token. Each
//! process, which is a thread, a program or a machine, has a [`Probe`] and tells it whenever its condition may have
//! changed. Each message between the processes carries a stamp, and each [`Note`] that a probe gives goes to a
//! [`Checker`]. The checker finds the first moment at which all conditions could have held at once, or says that
//! there was none.
//!
//! ```
//! use wullaphi::{Checker, Probe, Report};
//!
//! # fn main() -> Result<(), wullaphi::Refusal> {
//! let mut checker = Checker::new(1, 2)?;
//! let mut ada = Probe::new(1, 0, 2)?;
//! let mut ben = Probe::new(1, 1, 2)?;
//!
//! let mut notes = vec![ada.observe(true)?];  // ada has the token,
//! let token = ada.stamp(1, "the token")?;    // sends it,
//! notes.push(ada.observe(false)?);           // and has it no longer
//! ben.receive(token)?;
//! notes.push(ben.observe(true)?);
//! notes.extend([Some(ada.close()?), Some(ben.close()?)]);
//!
//! for note in notes.iter().flatten() {
//!     checker.take(note)?;
//! }
//! assert_eq!(checker.report(), Report::Nothing); // they never had it at once
//! # Ok(())
//! # }
//! ```
//!
//! **Only stamped messages count**, and what [`sync`] and [`thread`] stamp by themselves: locks, channels, starts and
//! joins, under a [`Watch`]. Order that comes from other locks, atomics or messages without a stamp isn't seen:
//! [`Report::Found`] may then be an impossible moment; [`Report::Nothing`] stays true.
//!
//! # What the compiler checks
//!
//! A message between threads is a [`Stamped`] value. Only a probe makes one, and only the receiver's probe opens it,
//! once. So a stamp can't be made up, and a message can't be read without being received. A probe can't be copied.
//!
//! The compiler doesn't notice a message that is sent without a stamp, order that comes from a lock, two probes that
//! are made for one process, or a note that never reaches the checker. Those are the caller's duties, as they are in
//! C. The checker refuses notes that come out of order or twice, those of another watch, and those of a process that it
//! watches but whose probe has no condition. A [`Stamp`] or a [`Note`] that was made from bytes may be forged.
//!
//! The crate calls the C library. The library is proved; the crate itself is only tested.
#![deny(missing_docs, unsafe_op_in_unsafe_fn)]
#![deny(clippy::undocumented_unsafe_blocks)]

mod account;
mod attendance;
mod checker;
mod error;
mod ffi;
mod holding;
mod meeting;
mod note;
mod party;
mod probe;
mod shared;
mod single;
mod stamp;
pub mod sync;
pub mod thread;
mod watch;
mod watch_report;

pub use account::Account;
pub use checker::{Checker, Report};
pub use error::{Refusal, Refused};
pub use holding::{holding, Holding};
pub use meeting::{At, Meeting};
pub use note::{Note, NOTE_SIZE};
pub use probe::{Options, Probe, PROBE_SIZE};
pub use single::{single, Single};
pub use stamp::{Stamp, Stamped, STAMP_SIZE};
pub use watch::{Entered, Watch, WatchError};
pub use watch_report::{Member, WatchReport};

/// The version of the C library: ten thousand times the first number, a hundred times the second, and the third.
///
/// ```
/// assert_eq!(wullaphi::library_version(), 300);
/// ```
pub fn library_version() -> u32 {
    // SAFETY: the call only answers a number.
    unsafe { ffi::wcp_version() }
}

/// The most processes of a watch.
pub const MAX_PROCESSES: u32 = ffi::MAX_PROCESSES as u32;
