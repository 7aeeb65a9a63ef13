//! Clocks and deadlines.

use crate::raw::Moment;
use std::fmt;
use std::sync::{Arc, Mutex, PoisonError};
use std::time::{Duration, Instant};

/// A clock of the program, by which the calls of a system measure time
/// ([`Builder::clock`](crate::Builder::clock)).
///
/// A moment is the time since some origin. The clock should not go back. This one counts its own
/// steps, and another thread advances it:
///
/// ```
/// use std::sync::atomic::{AtomicU64, Ordering};
/// use std::time::Duration;
/// use yakyrombe::{Clock, System};
///
/// #[derive(Default)]
/// struct Steps(AtomicU64);
///
/// impl Clock for Steps {
///     fn now(&self) -> Duration {
///         Duration::from_millis(self.0.load(Ordering::Relaxed))
///     }
/// }
///
/// # fn main() -> Result<(), yakyrombe::Error> {
/// let (system, processes) =
///     System::builder().processes(2).clock(Steps::default()).build()?;
/// assert_eq!(system.now(), Duration::ZERO);
/// # drop(processes);
/// # Ok(())
/// # }
/// ```
///
/// A simulation in one thread uses a [`VirtualClock`].
pub trait Clock: Send + Sync {
    /// The moment now.
    fn now(&self) -> Duration;

    /// Called when a call of this thread waits and its deadline has not passed. In a simulation in
    /// one thread nothing can end the wait before the deadline, so a virtual clock advances to the
    /// deadline and returns true. Any other clock returns false, as this default does. Then the
    /// thread sleeps until its call is answered, and reads the clock again at least every 80
    /// milliseconds, or when [`Process::time_has_moved`](crate::Process::time_has_moved) tells it to.
    fn skip_to(&self, deadline: Duration) -> bool {
        let _ = deadline;
        false
    }
}

impl<C: Clock + ?Sized> Clock for Arc<C> {
    fn now(&self) -> Duration {
        (**self).now()
    }

    fn skip_to(&self, deadline: Duration) -> bool {
        (**self).skip_to(deadline)
    }
}

/// The default clock of a system: a monotonic clock. On Linux it is that of [`Instant`].
///
/// ```
/// use yakyrombe::{Clock, Monotonic};
///
/// let before = Monotonic.now();
/// assert!(Monotonic.now() >= before);
/// ```
#[derive(Clone, Copy, Debug, Default, PartialEq, Eq, PartialOrd, Ord, Hash)]
pub struct Monotonic;

impl Clock for Monotonic {
    fn now(&self) -> Duration {
        Moment::now().time()
    }
}

/// Virtual time, for a simulation in one thread. It advances only when the program advances it, and
/// when a call with a deadline waits: then it jumps to the deadline, and the call fails with
/// [`TimedOut`](crate::Error::TimedOut) without sleeping. A call without a deadline still waits for
/// another thread.
///
/// A clone shows the same time. It does not suit threads that wait for each other, because the
/// first wait advances the time of all: they need a [`Clock`] of the program, which another thread
/// advances.
///
/// ```
/// use std::time::{Duration, Instant};
/// use yakyrombe::{Clock, Error, OpenOptions, System, VirtualClock};
///
/// # fn main() -> Result<(), Error> {
/// let clock = VirtualClock::new();
/// let (_, [process]) = System::builder().clock(clock.clone()).build_array()?;
/// let queue = process.open("/q", OpenOptions::read().create())?;
///
/// let begin = Instant::now();
/// let hour = Duration::from_secs(3600);
/// assert_eq!(queue.receive_timeout(&mut [0; 8192], hour), Err(Error::TimedOut));
/// assert_eq!(clock.now(), hour);
/// clock.advance(hour);
/// assert_eq!(clock.now(), 2 * hour);
/// assert!(begin.elapsed() < hour);
/// # Ok(())
/// # }
/// ```
#[derive(Clone, Default)]
pub struct VirtualClock(Arc<Mutex<Duration>>);

impl VirtualClock {
    /// A clock that starts at its origin.
    #[must_use]
    pub fn new() -> VirtualClock {
        VirtualClock::default()
    }

    /// Advances by this much.
    pub fn advance(&self, time: Duration) {
        self.change(|now| now.saturating_add(time));
    }

    /// Advances to a moment, unless it has passed.
    pub fn advance_to(&self, moment: Duration) {
        self.change(|now| now.max(moment));
    }

    fn change(&self, change: impl FnOnce(Duration) -> Duration) -> Duration {
        // Nothing panics while it is locked.
        let mut now = self.0.lock().unwrap_or_else(PoisonError::into_inner);
        *now = change(*now);
        *now
    }
}

impl Clock for VirtualClock {
    fn now(&self) -> Duration {
        self.change(|now| now)
    }

    fn skip_to(&self, deadline: Duration) -> bool {
        self.advance_to(deadline);
        true
    }
}

impl fmt::Debug for VirtualClock {
    fn fmt(&self, to: &mut fmt::Formatter<'_>) -> fmt::Result {
        to.debug_tuple("VirtualClock").field(&self.now()).finish()
    }
}

/// The moment until which a call waits. An [`Instant`] converts into one.
///
/// ```
/// use std::time::{Duration, Instant};
/// use yakyrombe::{Deadline, Error, OpenOptions, System};
///
/// # fn main() -> Result<(), Error> {
/// let (system, [process]) = System::builder().build_array()?;
/// let queue = process.open("/q", OpenOptions::read().create().limits(1, 8))?;
/// let soon = Duration::from_millis(2);
/// let mut buf = [0; 8];
/// assert_eq!(queue.receive_deadline(&mut buf, Instant::now() + soon), Err(Error::TimedOut));
/// let moment = Deadline::Moment(system.now() + soon);
/// assert_eq!(queue.receive_deadline(&mut buf, moment), Err(Error::TimedOut));
/// # Ok(())
/// # }
/// ```
#[derive(Clone, Copy, Debug, PartialEq, Eq, PartialOrd, Ord, Hash)]
#[non_exhaustive]
pub enum Deadline {
    /// At this moment of the clock of the system ([`System::now`](crate::System::now)).
    Moment(Duration),
    /// At this moment of real time, whatever the clock of the system is.
    Instant(Instant),
}

impl From<Instant> for Deadline {
    fn from(moment: Instant) -> Deadline {
        Deadline::Instant(moment)
    }
}

/// The deadline of a wait, and its clock.
#[derive(Clone, Copy, Debug)]
pub(crate) struct Limit {
    pub until: Moment,
    /// Whether the deadline is in real time, even if the system has a clock of the program.
    pub is_real: bool,
}

/// The clock of a system: `None` for the monotonic clock, which the library reads itself.
pub(crate) type OwnClock = Option<Box<dyn Clock>>;

/// The moment now, by the clock of a system or by real time.
pub(crate) fn moment_now(own: &OwnClock, is_real: bool) -> Moment {
    match own {
        Some(clock) if !is_real => Moment::since_origin(clock.now()),
        _ => Moment::now(),
    }
}

impl Limit {
    /// No deadline: the wait can be cancelled, but does not end by itself.
    pub const NONE: Limit = Limit { until: Moment::LAST, is_real: true };

    pub fn of(deadline: Deadline) -> Limit {
        match deadline {
            Deadline::Moment(moment) => {
                Limit { until: Moment::since_origin(moment), is_real: false }
            }
            Deadline::Instant(instant) => {
                let left = instant.saturating_duration_since(Instant::now());
                Limit { until: after(Moment::now(), left), is_real: true }
            }
        }
    }

    /// This long after now, by the clock of a system.
    pub fn after(time: Duration, own: &OwnClock) -> Limit {
        Limit { until: after(moment_now(own, false), time), is_real: false }
    }

    /// Whether the deadline has passed at a moment of its clock.
    pub fn has_passed(&self, now: Moment) -> bool {
        self.until <= now
    }
}

/// The moment this much later, or the last one that there is.
fn after(moment: Moment, time: Duration) -> Moment {
    Moment::since_origin(moment.time().saturating_add(time))
}
