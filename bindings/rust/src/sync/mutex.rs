use crate::party::{self, Marks};
use std::fmt;
use std::ops::{Deref, DerefMut};
use std::sync::{self, LockResult, PoisonError, TryLockError, TryLockResult};

/// What a lock keeps, with what its last holder left.
#[derive(Default)]
pub(super) struct Kept<T: ?Sized> {
    pub(super) marks: Marks,
    pub(super) value: T,
}

/// A [`std::sync::Mutex`] whose releases come before its later locks.
#[derive(Default)]
pub struct Mutex<T: ?Sized> {
    inner: sync::Mutex<Kept<T>>,
}

/// The holder of a [`Mutex`]. It leaves its stamp as it is dropped, before the lock is free.
#[must_use = "the lock is released at once where its guard isn't kept"]
pub struct MutexGuard<'a, T: ?Sized> {
    /// There until it is dropped, or waits at a condition variable.
    inner: Option<sync::MutexGuard<'a, Kept<T>>>,
}

impl<T> Mutex<T> {
    /// A free lock.
    pub const fn new(value: T) -> Mutex<T> {
        Mutex {
            inner: sync::Mutex::new(Kept {
                marks: Marks::None,
                value,
            }),
        }
    }

    /// The value.
    ///
    /// # Errors
    ///
    /// A thread has panicked with the lock.
    pub fn into_inner(self) -> LockResult<T> {
        match self.inner.into_inner() {
            Ok(kept) => Ok(kept.value),
            Err(poisoned) => Err(PoisonError::new(poisoned.into_inner().value)),
        }
    }
}

impl<T: ?Sized> Mutex<T> {
    /// Waits for the lock, and takes it.
    ///
    /// # Errors
    ///
    /// A thread has panicked with the lock. It is taken all the same.
    pub fn lock(&self) -> LockResult<MutexGuard<'_, T>> {
        party::meet();
        match self.inner.lock() {
            Ok(inner) => Ok(MutexGuard::new(inner)),
            Err(poisoned) => Err(PoisonError::new(MutexGuard::new(poisoned.into_inner()))),
        }
    }

    /// Takes the lock, if it is free.
    ///
    /// # Errors
    ///
    /// It isn't, or a thread has panicked with it.
    pub fn try_lock(&self) -> TryLockResult<MutexGuard<'_, T>> {
        party::meet();
        match self.inner.try_lock() {
            Ok(inner) => Ok(MutexGuard::new(inner)),
            Err(TryLockError::WouldBlock) => Err(TryLockError::WouldBlock),
            Err(TryLockError::Poisoned(poisoned)) => {
                let guard = MutexGuard::new(poisoned.into_inner());
                Err(TryLockError::Poisoned(PoisonError::new(guard)))
            }
        }
    }

    /// Whether a thread has panicked with the lock.
    pub fn is_poisoned(&self) -> bool {
        self.inner.is_poisoned()
    }

    /// The value, which nobody else can have now.
    ///
    /// # Errors
    ///
    /// A thread has panicked with the lock.
    pub fn get_mut(&mut self) -> LockResult<&mut T> {
        match self.inner.get_mut() {
            Ok(kept) => Ok(&mut kept.value),
            Err(poisoned) => Err(PoisonError::new(&mut poisoned.into_inner().value)),
        }
    }
}

impl<'a, T: ?Sized> MutexGuard<'a, T> {
    /// The holder that has just got the lock.
    pub(super) fn new(inner: sync::MutexGuard<'a, Kept<T>>) -> MutexGuard<'a, T> {
        party::take(&inner.marks);
        MutexGuard { inner: Some(inner) }
    }

    /// Leaves a stamp, and gives the lock to whoever releases it.
    pub(super) fn release(mut self) -> sync::MutexGuard<'a, Kept<T>> {
        party::meet();
        let mut inner = self.inner.take().expect(HELD);
        party::leave(&mut inner.marks);
        inner
    }
}

/// What a guard is until it is dropped.
const HELD: &str = "a guard has its lock";

impl<T: ?Sized> Drop for MutexGuard<'_, T> {
    fn drop(&mut self) {
        if let Some(inner) = &mut self.inner {
            party::meet();
            party::leave(&mut inner.marks);
        }
    }
}

impl<T: ?Sized> Deref for MutexGuard<'_, T> {
    type Target = T;

    fn deref(&self) -> &T {
        &self.inner.as_ref().expect(HELD).value
    }
}

impl<T: ?Sized> DerefMut for MutexGuard<'_, T> {
    fn deref_mut(&mut self) -> &mut T {
        &mut self.inner.as_mut().expect(HELD).value
    }
}

impl<T> From<T> for Mutex<T> {
    fn from(value: T) -> Mutex<T> {
        Mutex::new(value)
    }
}

impl<T: ?Sized + fmt::Debug> fmt::Debug for Mutex<T> {
    fn fmt(&self, f: &mut fmt::Formatter<'_>) -> fmt::Result {
        let mut shown = f.debug_struct("Mutex");
        match self.inner.try_lock() {
            Ok(inner) => shown.field("data", &&inner.value),
            Err(TryLockError::Poisoned(poisoned)) => {
                shown.field("data", &&poisoned.get_ref().value)
            }
            Err(TryLockError::WouldBlock) => shown.field("data", &format_args!("<locked>")),
        };
        shown
            .field("poisoned", &self.is_poisoned())
            .finish_non_exhaustive()
    }
}

impl<T: ?Sized + fmt::Debug> fmt::Debug for MutexGuard<'_, T> {
    fn fmt(&self, f: &mut fmt::Formatter<'_>) -> fmt::Result {
        (**self).fmt(f)
    }
}

impl<T: ?Sized + fmt::Display> fmt::Display for MutexGuard<'_, T> {
    fn fmt(&self, f: &mut fmt::Formatter<'_>) -> fmt::Result {
        (**self).fmt(f)
    }
}
