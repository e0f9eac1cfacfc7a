use crate::{party, shared};
use std::marker::PhantomData;
use std::panic::Location;

/// The condition of the calling thread's process holds until the answer is dropped, over each lock, channel and thread
/// in between. The report names the place of a moment by `label`, the file and the line of this call.
///
/// In a thread that is in no watch it does nothing, but for this: where a watch is open, its report names the thread,
/// and is then never [`Nothing`](crate::WatchReport::Nothing). So it is in a thread that is no process of its watch.
///
/// ```
/// use wullaphi::{holding, sync::Mutex};
///
/// let account = Mutex::new(100);
/// {
///     let mut balance = account.lock().unwrap();
///     let _held = holding("transfer"); // after the lock, so that it ends before the lock is free
///     *balance -= 5;
/// }
/// ```
#[track_caller]
#[must_use = "the condition holds until this is dropped"]
pub fn holding(label: &'static str) -> Holding {
    let place = Location::caller();
    let number = party::hold(|shared| shared.tag(label, place));
    if number.is_none() {
        shared::note_stray(party::watch());
    }
    Holding {
        number,
        of_this_thread: PhantomData,
    }
}

/// The condition of a process holds while this lives. It can't go to another thread:
///
/// ```compile_fail
/// let held = wullaphi::holding("transfer");
/// std::thread::spawn(move || drop(held));
/// ```
#[derive(Debug)]
pub struct Holding {
    number: Option<u64>,
    of_this_thread: PhantomData<*const ()>,
}

impl Drop for Holding {
    fn drop(&mut self) {
        if let Some(number) = self.number {
            party::let_go(number);
        }
    }
}
