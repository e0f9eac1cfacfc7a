use crate::party::{self, Marks};
use std::sync::{self, PoisonError};

/// A [`std::sync::Once`]: the call that ran comes before the return of each call that found it done.
#[derive(Default)]
pub struct Once {
    inner: OnceInner,
    marks: sync::Mutex<Marks>,
}

struct OnceInner(sync::Once);

impl Default for OnceInner {
    fn default() -> OnceInner {
        OnceInner(sync::Once::new())
    }
}

impl Once {
    /// One in which nothing ran.
    pub const fn new() -> Once {
        Once {
            inner: OnceInner(sync::Once::new()),
            marks: sync::Mutex::new(Marks::None),
        }
    }

    /// Runs this, if nothing ran before. Whoever finds another call running waits for its end.
    ///
    /// # Panics
    ///
    /// Where an earlier call has panicked.
    pub fn call_once<F: FnOnce()>(&self, run: F) {
        let mut has_run = false;
        party::meet();
        self.inner.0.call_once(|| {
            run();
            party::meet();
            self.leave();
            has_run = true;
        });
        if !has_run {
            self.take();
        }
    }

    /// Whether a call has ended without a panic.
    pub fn is_completed(&self) -> bool {
        let is_completed = self.inner.0.is_completed();
        if is_completed {
            party::meet();
            self.take();
        }
        is_completed
    }

    fn leave(&self) {
        party::leave(&mut self.marks.lock().unwrap_or_else(PoisonError::into_inner));
    }

    fn take(&self) {
        let marks = self
            .marks
            .lock()
            .unwrap_or_else(PoisonError::into_inner)
            .clone();
        party::take(&marks);
    }
}

impl std::fmt::Debug for Once {
    fn fmt(&self, f: &mut std::fmt::Formatter<'_>) -> std::fmt::Result {
        self.inner.0.fmt(f)
    }
}
