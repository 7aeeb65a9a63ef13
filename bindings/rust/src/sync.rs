//! A mutex and a condition variable whose calls are steps of a [`model`](crate::model()). Outside
//! of one, they are those of [`std::sync`].
//!
//! Those of `std` use atomics, which an exploration does not see.

use crate::raw::machine::{self, Condition, Lock};
use crate::raw::Moment;
use std::fmt;
use std::ops::{Deref, DerefMut};
use std::sync;
use std::time::Duration;

pub use std::sync::{Arc, LockResult, PoisonError, TryLockError, TryLockResult};

/// Like [`std::sync::Mutex`].
///
/// ```
/// use yakyrombe::sync::Mutex;
///
/// let count = Mutex::new(1);
/// *count.lock().unwrap() += 1;
/// assert_eq!(count.into_inner().unwrap(), 2);
/// ```
#[derive(Default)]
pub struct Mutex<T: ?Sized> {
    /// In a model, it is locked before `inner`, and for as long.
    gate: Gate,
    inner: sync::Mutex<T>,
}

struct Gate(Lock);

impl Default for Gate {
    fn default() -> Gate {
        Gate(Lock::new())
    }
}

/// Like [`std::sync::MutexGuard`].
#[must_use = "the mutex is unlocked when its guard is dropped"]
pub struct MutexGuard<'m, T: ?Sized> {
    mutex: &'m Mutex<T>,
    /// Present until the drop.
    inner: Option<sync::MutexGuard<'m, T>>,
    is_gated: bool,
}

impl<T> Mutex<T> {
    /// An unlocked mutex.
    pub const fn new(value: T) -> Mutex<T> {
        Mutex { gate: Gate(Lock::new()), inner: sync::Mutex::new(value) }
    }

    /// The value.
    ///
    /// # Errors
    /// As in `std`: the mutex is poisoned.
    pub fn into_inner(self) -> LockResult<T> {
        self.inner.into_inner()
    }
}

impl<T: ?Sized> Mutex<T> {
    /// Waits until no other thread holds the mutex, and locks it.
    ///
    /// # Errors
    /// As in `std`: a thread has panicked while it held the mutex.
    pub fn lock(&self) -> LockResult<MutexGuard<'_, T>> {
        let is_gated = machine::decides();
        if is_gated {
            self.gate.0.lock();
        }
        self.guard(is_gated, self.inner.lock())
    }

    /// Locks the mutex if no thread holds it.
    ///
    /// # Errors
    /// As in `std`: it is locked, or poisoned.
    pub fn try_lock(&self) -> TryLockResult<MutexGuard<'_, T>> {
        let is_gated = machine::decides();
        if is_gated && !self.gate.0.try_lock() {
            return Err(TryLockError::WouldBlock);
        }
        match self.inner.try_lock() {
            Ok(inner) => Ok(self.guard(is_gated, Ok(inner))?),
            Err(TryLockError::Poisoned(it)) => Ok(self.guard(is_gated, Err(it))?),
            Err(TryLockError::WouldBlock) => Err(TryLockError::WouldBlock),
        }
    }

    /// Whether a thread has panicked while it held the mutex.
    pub fn is_poisoned(&self) -> bool {
        self.inner.is_poisoned()
    }

    /// The value; the exclusive borrow makes locking unnecessary.
    ///
    /// # Errors
    /// As in `std`: the mutex is poisoned.
    pub fn get_mut(&mut self) -> LockResult<&mut T> {
        self.inner.get_mut()
    }

    fn guard<'m>(
        &'m self,
        is_gated: bool,
        locked: LockResult<sync::MutexGuard<'m, T>>,
    ) -> LockResult<MutexGuard<'m, T>> {
        let guard = |inner| MutexGuard { mutex: self, inner: Some(inner), is_gated };
        match locked {
            Ok(inner) => Ok(guard(inner)),
            Err(it) => Err(PoisonError::new(guard(it.into_inner()))),
        }
    }
}

impl<T: ?Sized + fmt::Debug> fmt::Debug for Mutex<T> {
    fn fmt(&self, to: &mut fmt::Formatter<'_>) -> fmt::Result {
        self.inner.fmt(to)
    }
}

impl<'m, T: ?Sized> MutexGuard<'m, T> {
    /// Takes the inner guard out, so that the drop of this one unlocks nothing.
    fn take(&mut self) -> sync::MutexGuard<'m, T> {
        self.inner.take().expect("it is there up to the drop")
    }
}

impl<T: ?Sized> Deref for MutexGuard<'_, T> {
    type Target = T;

    fn deref(&self) -> &T {
        self.inner.as_ref().expect("it is there up to the drop")
    }
}

impl<T: ?Sized> DerefMut for MutexGuard<'_, T> {
    fn deref_mut(&mut self) -> &mut T {
        self.inner.as_mut().expect("it is there up to the drop")
    }
}

impl<T: ?Sized> Drop for MutexGuard<'_, T> {
    fn drop(&mut self) {
        if self.inner.take().is_some() && self.is_gated {
            self.mutex.gate.0.unlock();
        }
    }
}

impl<T: ?Sized + fmt::Debug> fmt::Debug for MutexGuard<'_, T> {
    fn fmt(&self, to: &mut fmt::Formatter<'_>) -> fmt::Result {
        (**self).fmt(to)
    }
}

/// Like [`std::sync::Condvar`]. In a model there are no spurious wake-ups.
///
/// ```
/// use std::thread;
/// use yakyrombe::sync::{Condvar, Mutex};
///
/// let (is_done, done) = (Mutex::new(false), Condvar::new());
/// thread::scope(|scope| {
///     scope.spawn(|| {
///         *is_done.lock().unwrap() = true;
///         done.notify_one();
///     });
///     let guard = done.wait_while(is_done.lock().unwrap(), |is_done| !*is_done).unwrap();
///     assert!(*guard);
/// });
/// ```
pub struct Condvar {
    gate: Condition,
    inner: sync::Condvar,
}

/// Whether a wait with a deadline timed out.
#[derive(Clone, Copy, Debug, PartialEq, Eq)]
pub struct WaitTimeoutResult(bool);

impl WaitTimeoutResult {
    /// Whether the deadline has passed.
    #[must_use]
    pub fn timed_out(self) -> bool {
        self.0
    }
}

impl Default for Condvar {
    fn default() -> Condvar {
        Condvar::new()
    }
}

impl Condvar {
    /// A condition variable without waiters.
    #[must_use]
    pub const fn new() -> Condvar {
        Condvar { gate: Condition::new(), inner: sync::Condvar::new() }
    }

    /// Unlocks the mutex, waits until it is woken, and locks the mutex again.
    ///
    /// # Errors
    /// As in `std`: the mutex is poisoned.
    pub fn wait<'m, T>(&self, mut guard: MutexGuard<'m, T>) -> LockResult<MutexGuard<'m, T>> {
        let mutex = guard.mutex;
        if guard.is_gated {
            return self.wait_gated(guard, None).0;
        }
        mutex.guard(false, self.inner.wait(guard.take()))
    }

    /// Waits until the condition is false.
    ///
    /// # Errors
    /// Those of `wait`.
    pub fn wait_while<'m, T>(
        &self,
        mut guard: MutexGuard<'m, T>,
        mut goes_on: impl FnMut(&mut T) -> bool,
    ) -> LockResult<MutexGuard<'m, T>> {
        while goes_on(&mut *guard) {
            guard = self.wait(guard)?;
        }
        Ok(guard)
    }

    /// Like [`wait`](Condvar::wait), for at most this long.
    ///
    /// # Errors
    /// Those of `wait`.
    pub fn wait_timeout<'m, T>(
        &self,
        mut guard: MutexGuard<'m, T>,
        most: Duration,
    ) -> LockResult<(MutexGuard<'m, T>, WaitTimeoutResult)> {
        let mutex = guard.mutex;
        let (locked, is_late) = if guard.is_gated {
            let until = Moment::since_origin(Moment::now().time().saturating_add(most));
            self.wait_gated(guard, Some(until))
        } else {
            match self.inner.wait_timeout(guard.take(), most) {
                Ok((inner, ended)) => (mutex.guard(false, Ok(inner)), ended.timed_out()),
                Err(it) => {
                    let (inner, ended) = it.into_inner();
                    (mutex.guard(false, Err(PoisonError::new(inner))), ended.timed_out())
                }
            }
        };
        match locked {
            Ok(guard) => Ok((guard, WaitTimeoutResult(is_late))),
            Err(it) => Err(PoisonError::new((it.into_inner(), WaitTimeoutResult(is_late)))),
        }
    }

    /// Wakes one waiter.
    pub fn notify_one(&self) {
        if machine::decides() {
            self.gate.wake_one();
        }
        self.inner.notify_one();
    }

    /// Wakes all waiters.
    pub fn notify_all(&self) {
        if machine::decides() {
            self.gate.wake_all();
        }
        self.inner.notify_all();
    }

    /// The guard of the mutex, locked again, and whether the deadline has passed.
    fn wait_gated<'m, T>(
        &self,
        mut guard: MutexGuard<'m, T>,
        until: Option<Moment>,
    ) -> (LockResult<MutexGuard<'m, T>>, bool) {
        let mutex = guard.mutex;
        drop(guard.take());
        let is_woken = self.gate.wait(&mutex.gate.0, until);
        (mutex.guard(true, mutex.inner.lock()), !is_woken)
    }
}

impl fmt::Debug for Condvar {
    fn fmt(&self, to: &mut fmt::Formatter<'_>) -> fmt::Result {
        to.debug_struct("Condvar").finish_non_exhaustive()
    }
}
