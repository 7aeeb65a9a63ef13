//! Who is woken when a wait is answered, or when no sender of a queue is left.
//!
//! A call knows whose waits it answered, and wakes them before it returns. So no thread is needed
//! to wait for others, and nothing polls. A thread that waits inside a call of the library is woken
//! by the library, and is not registered here.

use crate::process::Process;
use crate::system::MOST_PROCESSES;
use std::mem::replace;
use std::sync::{Arc, Condvar, Mutex, MutexGuard, PoisonError};
use std::task::{Wake, Waker};
use std::time::Duration;

/// The wakers to call when the wait of a process is answered, process 1 first.
#[derive(Default)]
pub(crate) struct Wakers([Mutex<Option<Waker>>; MOST_PROCESSES]);

impl Wakers {
    fn of(&self, place: usize) -> MutexGuard<'_, Option<Waker>> {
        locked(&self.0[place])
    }

    pub fn set(&self, process: &Process, waker: Option<Waker>) {
        let before = replace(&mut *self.of(process.number() as usize - 1), waker);
        drop(before);
    }

    /// Wakes those who wait for the processes whose bits are set; process p has bit p - 1.
    #[cold]
    pub fn wake(&self, processes: u32) {
        let mut left = processes;
        while left != 0 {
            let waker = self.of(left.trailing_zeros() as usize).take();
            left &= left - 1;
            if let Some(waker) = waker {
                waker.wake();
            }
        }
    }

    /// Wakes all who wait. Each looks again whether it has to.
    pub fn wake_all(&self) {
        self.wake(u32::MAX);
    }
}

/// Lets one thread sleep until it is woken.
#[derive(Default)]
pub(crate) struct Sleeper {
    is_woken: Mutex<bool>,
    changed: Condvar,
}

impl Sleeper {
    /// Sleeps until it was woken since the last sleep, for at most this long.
    pub fn sleep(&self, most: Option<Duration>) {
        let mut is_woken = locked(&self.is_woken);
        if !*is_woken {
            is_woken = match most {
                None => self.changed.wait(is_woken).unwrap_or_else(PoisonError::into_inner),
                Some(most) => {
                    let woken = self.changed.wait_timeout(is_woken, most);
                    woken.unwrap_or_else(PoisonError::into_inner).0
                }
            };
        }
        *is_woken = false;
    }
}

impl Wake for Sleeper {
    fn wake(self: Arc<Self>) {
        *locked(&self.is_woken) = true;
        self.changed.notify_one();
    }
}

// Nothing panics while one of these is locked.
fn locked<T>(mutex: &Mutex<T>) -> MutexGuard<'_, T> {
    mutex.lock().unwrap_or_else(PoisonError::into_inner)
}
