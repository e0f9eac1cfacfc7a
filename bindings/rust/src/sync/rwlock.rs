use crate::party::{self, MarkSet, Marks};
use std::fmt;
use std::ops::{Deref, DerefMut};
use std::sync::{self, LockResult, Mutex, PoisonError, TryLockError, TryLockResult};

/// What a lock keeps, with what its last writer and the readers since have left.
#[derive(Default)]
struct Kept<T: ?Sized> {
    written: Marks,
    read: Mutex<MarkSet>,
    value: T,
}

/// A [`std::sync::RwLock`]: the release of a writer comes before each later read and write, and that of a reader before
/// each later write. Two readers are not ordered.
#[derive(Default)]
pub struct RwLock<T: ?Sized> {
    inner: sync::RwLock<Kept<T>>,
}

/// A reader of an [`RwLock`].
#[must_use = "the lock is released at once where its guard isn't kept"]
pub struct RwLockReadGuard<'a, T: ?Sized> {
    inner: sync::RwLockReadGuard<'a, Kept<T>>,
}

/// The writer of an [`RwLock`].
#[must_use = "the lock is released at once where its guard isn't kept"]
pub struct RwLockWriteGuard<'a, T: ?Sized> {
    inner: sync::RwLockWriteGuard<'a, Kept<T>>,
}

impl<T> RwLock<T> {
    /// A free lock.
    pub const fn new(value: T) -> RwLock<T> {
        RwLock {
            inner: sync::RwLock::new(Kept {
                written: Marks::None,
                read: Mutex::new(MarkSet::new()),
                value,
            }),
        }
    }

    /// The value.
    ///
    /// # Errors
    ///
    /// A writer has panicked.
    pub fn into_inner(self) -> LockResult<T> {
        match self.inner.into_inner() {
            Ok(kept) => Ok(kept.value),
            Err(poisoned) => Err(PoisonError::new(poisoned.into_inner().value)),
        }
    }
}

impl<T: ?Sized> RwLock<T> {
    /// Waits until there is no writer, and reads.
    ///
    /// # Errors
    ///
    /// A writer has panicked.
    pub fn read(&self) -> LockResult<RwLockReadGuard<'_, T>> {
        party::meet();
        match self.inner.read() {
            Ok(inner) => Ok(RwLockReadGuard::new(inner)),
            Err(poisoned) => Err(PoisonError::new(RwLockReadGuard::new(
                poisoned.into_inner(),
            ))),
        }
    }

    /// Reads, if there is no writer.
    ///
    /// # Errors
    ///
    /// There is one, or one has panicked.
    pub fn try_read(&self) -> TryLockResult<RwLockReadGuard<'_, T>> {
        party::meet();
        self.inner
            .try_read()
            .map(RwLockReadGuard::new)
            .map_err(|fault| mapped(fault, RwLockReadGuard::new))
    }

    /// Waits until nobody has the lock, and writes.
    ///
    /// # Errors
    ///
    /// A writer has panicked.
    pub fn write(&self) -> LockResult<RwLockWriteGuard<'_, T>> {
        party::meet();
        match self.inner.write() {
            Ok(inner) => Ok(RwLockWriteGuard::new(inner)),
            Err(poisoned) => Err(PoisonError::new(RwLockWriteGuard::new(
                poisoned.into_inner(),
            ))),
        }
    }

    /// Writes, if nobody has the lock.
    ///
    /// # Errors
    ///
    /// Somebody has it, or a writer has panicked.
    pub fn try_write(&self) -> TryLockResult<RwLockWriteGuard<'_, T>> {
        party::meet();
        self.inner
            .try_write()
            .map(RwLockWriteGuard::new)
            .map_err(|fault| mapped(fault, RwLockWriteGuard::new))
    }

    /// Whether a writer has panicked.
    pub fn is_poisoned(&self) -> bool {
        self.inner.is_poisoned()
    }

    /// The value, which nobody else can have now.
    ///
    /// # Errors
    ///
    /// A writer has panicked.
    pub fn get_mut(&mut self) -> LockResult<&mut T> {
        match self.inner.get_mut() {
            Ok(kept) => Ok(&mut kept.value),
            Err(poisoned) => Err(PoisonError::new(&mut poisoned.into_inner().value)),
        }
    }
}

/// The same fault of a guard that `make` makes.
fn mapped<A, B>(fault: TryLockError<A>, make: impl FnOnce(A) -> B) -> TryLockError<B> {
    match fault {
        TryLockError::WouldBlock => TryLockError::WouldBlock,
        TryLockError::Poisoned(poisoned) => {
            TryLockError::Poisoned(PoisonError::new(make(poisoned.into_inner())))
        }
    }
}

impl<'a, T: ?Sized> RwLockReadGuard<'a, T> {
    fn new(inner: sync::RwLockReadGuard<'a, Kept<T>>) -> RwLockReadGuard<'a, T> {
        party::take(&inner.written);
        RwLockReadGuard { inner }
    }
}

impl<'a, T: ?Sized> RwLockWriteGuard<'a, T> {
    fn new(mut inner: sync::RwLockWriteGuard<'a, Kept<T>>) -> RwLockWriteGuard<'a, T> {
        party::take(&inner.written);
        let read = inner.read.get_mut().unwrap_or_else(PoisonError::into_inner);
        party::take(&read.marks());
        read.clear();
        RwLockWriteGuard { inner }
    }
}

impl<T: ?Sized> Drop for RwLockReadGuard<'_, T> {
    fn drop(&mut self) {
        party::meet();
        let marks = party::left();
        self.inner
            .read
            .lock()
            .unwrap_or_else(PoisonError::into_inner)
            .add_all(&marks);
    }
}

impl<T: ?Sized> Drop for RwLockWriteGuard<'_, T> {
    fn drop(&mut self) {
        party::meet();
        party::leave(&mut self.inner.written);
    }
}

impl<T: ?Sized> Deref for RwLockReadGuard<'_, T> {
    type Target = T;

    fn deref(&self) -> &T {
        &self.inner.value
    }
}

impl<T: ?Sized> Deref for RwLockWriteGuard<'_, T> {
    type Target = T;

    fn deref(&self) -> &T {
        &self.inner.value
    }
}

impl<T: ?Sized> DerefMut for RwLockWriteGuard<'_, T> {
    fn deref_mut(&mut self) -> &mut T {
        &mut self.inner.value
    }
}

impl<T> From<T> for RwLock<T> {
    fn from(value: T) -> RwLock<T> {
        RwLock::new(value)
    }
}

impl<T: ?Sized> fmt::Debug for RwLock<T> {
    fn fmt(&self, f: &mut fmt::Formatter<'_>) -> fmt::Result {
        f.debug_struct("RwLock")
            .field("poisoned", &self.is_poisoned())
            .finish_non_exhaustive()
    }
}

impl<T: ?Sized + fmt::Debug> fmt::Debug for RwLockReadGuard<'_, T> {
    fn fmt(&self, f: &mut fmt::Formatter<'_>) -> fmt::Result {
        (**self).fmt(f)
    }
}

impl<T: ?Sized + fmt::Debug> fmt::Debug for RwLockWriteGuard<'_, T> {
    fn fmt(&self, f: &mut fmt::Formatter<'_>) -> fmt::Result {
        (**self).fmt(f)
    }
}
