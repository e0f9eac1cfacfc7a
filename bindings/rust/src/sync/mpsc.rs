//! The channels of [`std::sync::mpsc`], whose orders are seen: an item's send comes before its receive, and in a
//! channel with room for N the k-th receive before the end of the (k+N)-th send. Two sends are not ordered, nor two
//! receives.

use super::bounded::Bounded;
use crate::party::{self, Marks};
use std::fmt;
use std::sync::{mpsc, Arc};
use std::time::{Duration, Instant};

pub use std::sync::mpsc::{RecvError, RecvTimeoutError, SendError, TryRecvError, TrySendError};

/// A channel that never is full.
pub fn channel<T>() -> (Sender<T>, Receiver<T>) {
    let (sender, receiver) = mpsc::channel();
    let receiver = Receiver {
        source: Source::Unbounded(receiver),
    };
    (Sender { inner: sender }, receiver)
}

/// A channel with room for `bound` items. With room for none each send waits until its item was received.
pub fn sync_channel<T>(bound: usize) -> (SyncSender<T>, Receiver<T>) {
    let shared = Arc::new(Bounded::new(bound));
    let receiver = Receiver {
        source: Source::Bounded(Arc::clone(&shared)),
    };
    (SyncSender { shared }, receiver)
}

/// Sends into a channel that never is full.
pub struct Sender<T> {
    inner: mpsc::Sender<(T, Marks)>,
}

/// Sends into a channel with room for a number of items.
pub struct SyncSender<T> {
    shared: Arc<Bounded<T>>,
}

/// Receives from a channel.
pub struct Receiver<T> {
    source: Source<T>,
}

enum Source<T> {
    Unbounded(mpsc::Receiver<(T, Marks)>),
    Bounded(Arc<Bounded<T>>),
}

/// The items that a receiver gets, until all senders are gone.
pub struct Iter<'a, T>(&'a Receiver<T>);

/// The items that are there.
pub struct TryIter<'a, T>(&'a Receiver<T>);

/// The items that a receiver of its own gets.
pub struct IntoIter<T>(Receiver<T>);

impl<T> Sender<T> {
    /// Sends an item.
    ///
    /// # Errors
    ///
    /// The receiver is gone; here is the item.
    pub fn send(&self, value: T) -> Result<(), SendError<T>> {
        party::meet();
        self.inner
            .send((value, party::left()))
            .map_err(|fault| SendError(fault.0 .0))
    }
}

impl<T> SyncSender<T> {
    /// Sends an item, once there is room.
    ///
    /// # Errors
    ///
    /// The receiver is gone; here is the item.
    pub fn send(&self, value: T) -> Result<(), SendError<T>> {
        party::meet();
        self.shared.send(value).map_err(SendError)
    }

    /// Sends an item, if there is room; with room for none, if the receiver waits.
    ///
    /// # Errors
    ///
    /// There is none, or the receiver is gone; here is the item.
    pub fn try_send(&self, value: T) -> Result<(), TrySendError<T>> {
        party::meet();
        self.shared.try_send(value)
    }
}

impl<T> Receiver<T> {
    /// Waits for an item.
    ///
    /// # Errors
    ///
    /// All senders are gone, and so are their items.
    pub fn recv(&self) -> Result<T, RecvError> {
        party::meet();
        match &self.source {
            Source::Unbounded(receiver) => receiver.recv().map(taken),
            Source::Bounded(shared) => shared.recv(None).map_err(|_| RecvError),
        }
    }

    /// An item, if there is one.
    ///
    /// # Errors
    ///
    /// There is none, or all senders are gone too.
    pub fn try_recv(&self) -> Result<T, TryRecvError> {
        party::meet();
        match &self.source {
            Source::Unbounded(receiver) => receiver.try_recv().map(taken),
            Source::Bounded(shared) => shared.try_recv(),
        }
    }

    /// Waits for an item, and for this time at most.
    ///
    /// # Errors
    ///
    /// None came, or all senders are gone.
    pub fn recv_timeout(&self, timeout: Duration) -> Result<T, RecvTimeoutError> {
        party::meet();
        match &self.source {
            Source::Unbounded(receiver) => receiver.recv_timeout(timeout).map(taken),
            Source::Bounded(shared) => shared.recv(Instant::now().checked_add(timeout)),
        }
    }

    /// The items, until all senders are gone.
    pub fn iter(&self) -> Iter<'_, T> {
        Iter(self)
    }

    /// The items that are there.
    pub fn try_iter(&self) -> TryIter<'_, T> {
        TryIter(self)
    }
}

/// An item, whose marks the calling thread takes.
fn taken<T>((value, marks): (T, Marks)) -> T {
    party::take(&marks);
    value
}

impl<T> Iterator for Iter<'_, T> {
    type Item = T;

    fn next(&mut self) -> Option<T> {
        self.0.recv().ok()
    }
}

impl<T> Iterator for TryIter<'_, T> {
    type Item = T;

    fn next(&mut self) -> Option<T> {
        self.0.try_recv().ok()
    }
}

impl<T> Iterator for IntoIter<T> {
    type Item = T;

    fn next(&mut self) -> Option<T> {
        self.0.recv().ok()
    }
}

impl<'a, T> IntoIterator for &'a Receiver<T> {
    type Item = T;
    type IntoIter = Iter<'a, T>;

    fn into_iter(self) -> Iter<'a, T> {
        self.iter()
    }
}

impl<T> IntoIterator for Receiver<T> {
    type Item = T;
    type IntoIter = IntoIter<T>;

    fn into_iter(self) -> IntoIter<T> {
        IntoIter(self)
    }
}

impl<T> Clone for Sender<T> {
    fn clone(&self) -> Sender<T> {
        Sender {
            inner: self.inner.clone(),
        }
    }
}

impl<T> Clone for SyncSender<T> {
    fn clone(&self) -> SyncSender<T> {
        self.shared.add_sender();
        SyncSender {
            shared: Arc::clone(&self.shared),
        }
    }
}

impl<T> Drop for SyncSender<T> {
    fn drop(&mut self) {
        self.shared.drop_sender();
    }
}

impl<T> Drop for Receiver<T> {
    fn drop(&mut self) {
        if let Source::Bounded(shared) = &self.source {
            drop(shared.drop_receiver());
        }
    }
}

impl<T> fmt::Debug for Sender<T> {
    fn fmt(&self, f: &mut fmt::Formatter<'_>) -> fmt::Result {
        f.debug_struct("Sender").finish_non_exhaustive()
    }
}

impl<T> fmt::Debug for SyncSender<T> {
    fn fmt(&self, f: &mut fmt::Formatter<'_>) -> fmt::Result {
        f.debug_struct("SyncSender").finish_non_exhaustive()
    }
}

impl<T> fmt::Debug for Receiver<T> {
    fn fmt(&self, f: &mut fmt::Formatter<'_>) -> fmt::Result {
        f.debug_struct("Receiver").finish_non_exhaustive()
    }
}
