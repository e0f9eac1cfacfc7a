//! The calls of [`std::thread`] that start and join threads, whose orders are seen: the start comes before what the thread
//! does, and its end before the return of `join`.
//!
//! A thread that is started by a thread of a watch is in it too. It is a process of the watch if it has one of its names.

use crate::party::{self, Marks, Party};
use crate::watch::WatchError;
use std::fmt;
use std::io;
use std::sync::{Arc, Mutex, PoisonError};
use std::thread;

pub use std::thread::{
    current, panicking, park, park_timeout, sleep, yield_now, AccessError, LocalKey, Result,
    Thread, ThreadId,
};

/// Starts a thread without a name.
///
/// # Panics
///
/// Where the system starts none.
pub fn spawn<F, T>(run: F) -> JoinHandle<T>
where
    F: FnOnce() -> T + Send + 'static,
    T: Send + 'static,
{
    Builder::new().spawn(run).expect(NOT_STARTED)
}

/// Starts threads that may borrow what outlives the call, and waits for the end of all.
///
/// # Panics
///
/// Where one of them has, and wasn't joined.
pub fn scope<'env, F, T>(run: F) -> T
where
    F: for<'scope> FnOnce(Scope<'scope, 'env>) -> T,
{
    let ended = Arc::default();
    let value = thread::scope(|inner| {
        let value = run(Scope {
            inner,
            ended: Arc::clone(&ended),
        });
        party::meet();
        value
    });
    for end in unpoisoned(ended.lock()).iter() {
        end.take();
    }
    value
}

const NOT_STARTED: &str = "the system starts no thread";

/// How a thread is to start.
#[derive(Debug)]
#[must_use = "a thread begins when it is spawned"]
pub struct Builder {
    inner: thread::Builder,
    name: Option<String>,
}

/// A thread to be joined.
#[derive(Debug)]
pub struct JoinHandle<T> {
    inner: thread::JoinHandle<T>,
    ended: Ended,
}

/// Where threads are started that may borrow.
#[derive(Clone)]
pub struct Scope<'scope, 'env: 'scope> {
    inner: &'scope thread::Scope<'scope, 'env>,
    ended: Arc<Mutex<Vec<Ended>>>,
}

/// A thread of a scope, to be joined.
#[derive(Debug)]
pub struct ScopedJoinHandle<'scope, T> {
    inner: thread::ScopedJoinHandle<'scope, T>,
    ended: Ended,
}

/// What a thread left at its end.
#[derive(Clone, Default)]
struct Ended(Arc<Mutex<Marks>>);

/// A thread's part in the watch, which ends as this is dropped, whether the thread ran or not.
struct Part {
    party: Option<Party>,
    ended: Ended,
    runs: bool,
}

impl Builder {
    /// A thread without a name.
    pub fn new() -> Builder {
        Builder {
            inner: thread::Builder::new(),
            name: None,
        }
    }

    /// Its name. A thread with the name of a process is that process.
    pub fn name(self, name: String) -> Builder {
        Builder {
            inner: self.inner.name(name.clone()),
            name: Some(name),
        }
    }

    /// The size of its stack in bytes.
    pub fn stack_size(self, size: usize) -> Builder {
        Builder {
            inner: self.inner.stack_size(size),
            name: self.name,
        }
    }

    /// Starts the thread.
    ///
    /// # Errors
    ///
    /// The system starts none, or, with [`AlreadyExists`](io::ErrorKind::AlreadyExists), the process of this name has
    /// begun before.
    pub fn spawn<F, T>(self, run: F) -> io::Result<JoinHandle<T>>
    where
        F: FnOnce() -> T + Send + 'static,
        T: Send + 'static,
    {
        let part = Part::new(self.name.as_deref())?;
        let ended = part.ended.clone();
        let inner = self.inner.spawn(move || part.run(run))?;
        Ok(JoinHandle { inner, ended })
    }

    /// Starts the thread in a scope.
    ///
    /// # Errors
    ///
    /// As [`spawn`](Builder::spawn)
    pub fn spawn_scoped<'scope, 'env, F, T>(
        self,
        scope: &Scope<'scope, 'env>,
        run: F,
    ) -> io::Result<ScopedJoinHandle<'scope, T>>
    where
        F: FnOnce() -> T + Send + 'scope,
        T: Send + 'scope,
    {
        let part = Part::new(self.name.as_deref())?;
        let ended = part.ended.clone();
        let inner = self
            .inner
            .spawn_scoped(scope.inner, move || part.run(run))?;
        unpoisoned(scope.ended.lock()).push(ended.clone());
        Ok(ScopedJoinHandle { inner, ended })
    }
}

impl Default for Builder {
    fn default() -> Builder {
        Builder::new()
    }
}

impl<'scope> Scope<'scope, '_> {
    /// Starts a thread without a name.
    ///
    /// # Panics
    ///
    /// Where the system starts none.
    pub fn spawn<F, T>(&self, run: F) -> ScopedJoinHandle<'scope, T>
    where
        F: FnOnce() -> T + Send + 'scope,
        T: Send + 'scope,
    {
        Builder::new().spawn_scoped(self, run).expect(NOT_STARTED)
    }
}

impl<T> JoinHandle<T> {
    /// Waits for the thread's end.
    ///
    /// # Errors
    ///
    /// It has panicked, with this.
    pub fn join(self) -> Result<T> {
        party::meet();
        let answer = self.inner.join();
        self.ended.take();
        answer
    }

    /// Whether the thread has ended.
    pub fn is_finished(&self) -> bool {
        let is_finished = self.inner.is_finished();
        if is_finished {
            party::meet();
            self.ended.take();
        }
        is_finished
    }

    /// The thread.
    pub fn thread(&self) -> &Thread {
        self.inner.thread()
    }
}

impl<T> ScopedJoinHandle<'_, T> {
    /// Waits for the thread's end.
    ///
    /// # Errors
    ///
    /// It has panicked, with this.
    pub fn join(self) -> Result<T> {
        party::meet();
        let answer = self.inner.join();
        self.ended.take();
        answer
    }

    /// Whether the thread has ended.
    pub fn is_finished(&self) -> bool {
        let is_finished = self.inner.is_finished();
        if is_finished {
            party::meet();
            self.ended.take();
        }
        is_finished
    }

    /// The thread.
    pub fn thread(&self) -> &Thread {
        self.inner.thread()
    }
}

impl Part {
    /// The part of a thread with this name that the calling thread starts.
    fn new(name: Option<&str>) -> io::Result<Part> {
        party::meet();
        let mut party = match party::watch() {
            None => None,
            Some(shared) => match name.map(|name| shared.begin(name)).transpose() {
                Ok(party) => Some(party.flatten().unwrap_or_else(|| Party::outsider(shared))),
                Err(fault @ WatchError::Begun(_)) => {
                    return Err(io::Error::new(io::ErrorKind::AlreadyExists, fault));
                }
                Err(fault) => return Err(io::Error::new(io::ErrorKind::Other, fault)),
            },
        };
        if let Some(party) = &mut party {
            party.take(&party::left());
        }
        Ok(Part {
            party,
            ended: Ended::default(),
            runs: false,
        })
    }

    /// Runs the thread.
    fn run<T>(mut self, run: impl FnOnce() -> T) -> T {
        self.runs = true;
        party::replace(self.party.take());
        let value = run();
        drop(self);
        value
    }
}

impl Drop for Part {
    fn drop(&mut self) {
        let party = if self.runs {
            party::replace(None)
        } else {
            self.party.take()
        };
        if let Some(party) = party {
            *unpoisoned(self.ended.0.lock()) = party.end();
        }
    }
}

impl Ended {
    fn take(&self) {
        let marks = unpoisoned(self.0.lock()).clone();
        party::take(&marks);
    }
}

/// No thread panics with a lock of this module.
fn unpoisoned<G>(got: std::result::Result<G, PoisonError<G>>) -> G {
    got.unwrap_or_else(PoisonError::into_inner)
}

impl fmt::Debug for Ended {
    fn fmt(&self, f: &mut fmt::Formatter<'_>) -> fmt::Result {
        f.debug_struct("Ended").finish_non_exhaustive()
    }
}

impl fmt::Debug for Scope<'_, '_> {
    fn fmt(&self, f: &mut fmt::Formatter<'_>) -> fmt::Result {
        f.debug_struct("Scope").finish_non_exhaustive()
    }
}
