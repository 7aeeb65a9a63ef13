//! How a queue holds its process.

use crate::process::Process;
use std::borrow::Borrow;
use std::rc::Rc;

/// How a [`Queue`](crate::Queue) holds its process: by a reference, by value, or by an [`Rc`].
///
/// | | Moves to another thread | Several queues of one process | In a struct with its process |
/// |---|---|---|---|
/// | `Queue<&Process>` | | yes | |
/// | `Queue<Process>` | yes | through its [`process`](crate::Queue::process) | yes |
/// | `Queue<Rc<Process>>` | | yes | yes |
///
/// A [`SharedQueue`](crate::SharedQueue) does all three, with a lock.
///
/// ```
/// use std::rc::Rc;
/// use yakyrombe::{Error, OpenOptions, Process, Queue, System};
///
/// struct Relay {
///     from: Queue<Rc<Process>>,
///     to: Queue<Rc<Process>>,
/// }
///
/// # fn main() -> Result<(), Error> {
/// let (_, [process]) = System::builder().build_array()?;
/// let process = Rc::new(process);
/// let from = Queue::open(Rc::clone(&process), "/from", OpenOptions::read().create())?;
/// let to = Queue::open(process, "/to", OpenOptions::write().create())?;
/// let relay = Relay { from, to };
/// assert_eq!(relay.from.try_iter().count(), 0);
/// # drop(relay.to);
/// # Ok(())
/// # }
/// ```
///
/// A queue that borrows its process does not outlive it, and stays in its thread:
///
/// ```compile_fail,E0505
/// use yakyrombe::{OpenOptions, System};
/// let (_, [process]) = System::builder().build_array().unwrap();
/// let queue = process.open("/q", OpenOptions::write().create()).unwrap();
/// drop(process);
/// queue.send(b"late", 0).unwrap();
/// ```
///
/// ```compile_fail,E0277
/// use yakyrombe::{OpenOptions, System};
/// let (_, [process]) = System::builder().build_array().unwrap();
/// let queue = process.open("/q", OpenOptions::write().create()).unwrap();
/// std::thread::scope(|scope| {
///     scope.spawn(move || queue.send(b"from elsewhere", 0));
/// });
/// ```
///
/// No other type is a holder, so a queue has the same process at each call:
///
/// ```compile_fail,E0277
/// use std::borrow::Borrow;
/// use yakyrombe::{Holder, Process};
///
/// struct Changing(Process, Process);
///
/// impl Borrow<Process> for Changing {
///     fn borrow(&self) -> &Process {
///         &self.1
///     }
/// }
///
/// impl Holder for Changing {}
/// ```
pub trait Holder: Borrow<Process> + sealed::Sealed {}

impl Holder for &Process {}
impl Holder for Process {}
impl Holder for Rc<Process> {}

mod sealed {
    use super::{Process, Rc};

    pub trait Sealed {}

    impl Sealed for &Process {}
    impl Sealed for Process {}
    impl Sealed for Rc<Process> {}
}
