use super::mutex::{Kept, MutexGuard};
use std::sync::{self, LockResult, PoisonError, WaitTimeoutResult};
use std::time::Duration;

/// A [`std::sync::Condvar`] of a watched [`Mutex`](super::Mutex): a wait releases the lock and gets it again, and these
/// are its only orders.
#[derive(Debug, Default)]
pub struct Condvar {
    inner: sync::Condvar,
}

impl Condvar {
    /// One at which nobody waits.
    pub const fn new() -> Condvar {
        Condvar {
            inner: sync::Condvar::new(),
        }
    }

    /// Releases the lock, waits to be notified, and takes it again.
    ///
    /// # Errors
    ///
    /// A thread has panicked with the lock. It is taken all the same.
    pub fn wait<'a, T>(&self, guard: MutexGuard<'a, T>) -> LockResult<MutexGuard<'a, T>> {
        match self.inner.wait(guard.release()) {
            Ok(inner) => Ok(MutexGuard::new(inner)),
            Err(poisoned) => Err(PoisonError::new(MutexGuard::new(poisoned.into_inner()))),
        }
    }

    /// Waits as long as the condition holds of the value.
    ///
    /// # Errors
    ///
    /// A thread has panicked with the lock.
    pub fn wait_while<'a, T, F>(
        &self,
        mut guard: MutexGuard<'a, T>,
        mut condition: F,
    ) -> LockResult<MutexGuard<'a, T>>
    where
        F: FnMut(&mut T) -> bool,
    {
        while condition(&mut *guard) {
            guard = self.wait(guard)?;
        }
        Ok(guard)
    }

    /// Waits for this time at most.
    ///
    /// # Errors
    ///
    /// A thread has panicked with the lock.
    pub fn wait_timeout<'a, T>(
        &self,
        guard: MutexGuard<'a, T>,
        duration: Duration,
    ) -> LockResult<(MutexGuard<'a, T>, WaitTimeoutResult)> {
        match self.inner.wait_timeout(guard.release(), duration) {
            Ok((inner, timeout)) => Ok((MutexGuard::new(inner), timeout)),
            Err(poisoned) => {
                let (inner, timeout) = poisoned.into_inner();
                Err(PoisonError::new((MutexGuard::new(inner), timeout)))
            }
        }
    }

    /// Waits as long as the condition holds of the value, and for this time at most.
    ///
    /// # Errors
    ///
    /// A thread has panicked with the lock.
    pub fn wait_timeout_while<'a, T, F>(
        &self,
        guard: MutexGuard<'a, T>,
        duration: Duration,
        mut condition: F,
    ) -> LockResult<(MutexGuard<'a, T>, WaitTimeoutResult)>
    where
        F: FnMut(&mut T) -> bool,
    {
        let holds = |kept: &mut Kept<T>| condition(&mut kept.value);
        match self
            .inner
            .wait_timeout_while(guard.release(), duration, holds)
        {
            Ok((inner, timeout)) => Ok((MutexGuard::new(inner), timeout)),
            Err(poisoned) => {
                let (inner, timeout) = poisoned.into_inner();
                Err(PoisonError::new((MutexGuard::new(inner), timeout)))
            }
        }
    }

    /// Wakes one that waits.
    pub fn notify_one(&self) {
        self.inner.notify_one();
    }

    /// Wakes all that wait.
    pub fn notify_all(&self) {
        self.inner.notify_all();
    }
}
