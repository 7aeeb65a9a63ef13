//! Deadlines by each clock.

use std::cell::RefCell;
use std::panic::{catch_unwind, AssertUnwindSafe};
use std::rc::Rc;
use std::sync::atomic::{AtomicBool, AtomicU64, Ordering::SeqCst};
use std::sync::Arc;
use std::task::Poll;
use std::thread;
use std::time::{Duration, Instant};
use yakyrombe::{
    Clock, Deadline, Error, Monotonic, OpenOptions, Process, Queue, Received, System, VirtualClock,
};

const QUEUE: OpenOptions = OpenOptions::read_write().create().limits(1, 8);
const MILLI: Duration = Duration::from_millis(1);
const SECOND: Duration = Duration::from_secs(1);
const HOUR: Duration = Duration::from_secs(3600);

fn by_clock(clock: impl Clock + 'static) -> (System, Queue<Process>) {
    let (system, [process]) = System::builder().journal(true).clock(clock).build_array().unwrap();
    (system, Queue::open(process, "/q", QUEUE).unwrap())
}

/// The last line of the journal, starting at the call.
fn last_call(queue: &Queue<Process>) -> String {
    let journal = queue.process().journal().unwrap();
    journal.lines().last().unwrap().splitn(3, ' ').last().unwrap().to_string()
}

type Receive = fn(&System, &Queue<&Process>, &mut [u8]) -> Result<Received, Error>;

#[test]
fn real_time_is_the_default() {
    let (system, [process]) = System::builder().build_array().unwrap();
    let queue = process.open("/q", QUEUE).unwrap();
    let before = Monotonic.now();
    assert!(system.now() >= before);
    let mut buf = [0; 8];
    let receives: [Receive; 3] = [
        |_, queue, buf| queue.receive_timeout(buf, 20 * MILLI),
        |_, queue, buf| queue.receive_deadline(buf, Instant::now() + 20 * MILLI),
        |system, queue, buf| {
            queue.receive_deadline(buf, Deadline::Moment(system.now() + 20 * MILLI))
        },
    ];
    for receive in receives {
        let start = Instant::now();
        assert_eq!(receive(&system, &queue, &mut buf), Err(Error::TimedOut));
        assert!((20 * MILLI..10_000 * MILLI).contains(&start.elapsed()), "{:?}", start.elapsed());
    }
    let past = Instant::now();
    assert_eq!(queue.receive_deadline(&mut buf, past), Err(Error::TimedOut));
    assert_eq!(
        queue.receive_deadline(&mut buf, Deadline::Moment(Duration::ZERO)),
        Err(Error::TimedOut)
    );
    queue.send(b"full", 0).unwrap();
    assert_eq!(queue.send_deadline(b"more", 0, past), Err(Error::TimedOut));
    assert_eq!(queue.receive_deadline(&mut buf, past), Ok(Received::new(4, 0)));
}

#[test]
fn in_virtual_time_a_wait_takes_no_time() {
    let clock = VirtualClock::new();
    let (system, queue) = by_clock(clock.clone());
    let start = Instant::now();
    for round in 1..=1000 {
        assert_eq!(queue.receive_timeout(&mut [0; 8], HOUR), Err(Error::TimedOut));
        assert_eq!((clock.now(), system.now()), (round * HOUR, round * HOUR));
    }
    queue.send(b"full", 0).unwrap();
    assert_eq!(
        queue.send_deadline(b"more", 0, Deadline::Moment(2000 * HOUR)),
        Err(Error::TimedOut)
    );
    assert_eq!(clock.now(), 2000 * HOUR);
    assert_eq!(queue.send_deadline(b"more", 0, Deadline::Moment(HOUR)), Err(Error::TimedOut));
    assert_eq!(clock.now(), 2000 * HOUR, "it does not go back");
    assert_eq!(queue.receive_timeout(&mut [0; 8], HOUR).map(|received| received.len), Ok(4));
    assert_eq!(clock.now(), 2000 * HOUR, "it did not wait");
    assert!(start.elapsed() < HOUR);
    assert_eq!(queue.receive_timeout(&mut [0; 8], Duration::MAX), Err(Error::TimedOut));
}

#[test]
fn the_journal_has_virtual_time() {
    let clock = VirtualClock::new();
    let (_, queue) = by_clock(clock.clone());
    clock.advance(1500 * MILLI);
    queue.send_timeout(b"a", 3, MILLI).unwrap();
    let sent = "tsend 0 3 1 until 1 501000000 at 1 500000000 \"a\" -> queued";
    assert_eq!(last_call(&queue), sent);
    queue.try_receive(&mut [0; 8]).unwrap();
    assert_eq!(last_call(&queue), "trecv 0 8 until 1 500000000 at 1 500000000 -> got 1");
    assert_eq!(queue.receive_timeout(&mut [0; 8], MILLI), Err(Error::TimedOut));
    assert_eq!(last_call(&queue), "withdraw at 1 501000000 -> withdrawn 3");
}

#[test]
fn a_virtual_clock_moves_on_and_never_back() {
    let clock = VirtualClock::new();
    assert_eq!(clock.now(), Duration::ZERO);
    clock.advance_to(5 * MILLI);
    clock.advance_to(3 * MILLI);
    assert_eq!(clock.now(), 5 * MILLI);
    clock.advance(Duration::MAX);
    assert_eq!(clock.now(), Duration::MAX);
    assert!(clock.skip_to(HOUR));
    assert_eq!(clock.now(), Duration::MAX);
}

#[test]
fn an_instant_is_real_also_beside_virtual_time() {
    let clock = VirtualClock::new();
    let (_, queue) = by_clock(clock.clone());
    let start = Instant::now();
    assert_eq!(queue.receive_deadline(&mut [0; 8], start + 20 * MILLI), Err(Error::TimedOut));
    assert!(start.elapsed() >= 20 * MILLI);
    assert_eq!(clock.now(), Duration::ZERO);
    let mut buf = [0; 8];
    assert!(queue.start_receive_deadline(&mut buf, Instant::now() + 20 * MILLI).is_pending());
    clock.advance(HOUR);
    assert_eq!(queue.collect_receive(&mut buf), Poll::Pending);
    thread::sleep(25 * MILLI);
    assert_eq!(queue.collect_receive(&mut buf), Poll::Ready(Err(Error::TimedOut)));
}

#[test]
fn a_started_wait_ends_in_virtual_time() {
    let clock = VirtualClock::new();
    let (_, queue) = by_clock(clock.clone());
    let mut buf = [0; 8];
    assert!(queue.start_receive_timeout(&mut buf, HOUR).is_pending());
    clock.advance(3599 * SECOND);
    assert_eq!(queue.collect_receive(&mut buf), Poll::Pending);
    clock.advance(SECOND);
    assert_eq!(queue.collect_receive(&mut buf), Poll::Ready(Err(Error::TimedOut)));
    queue.send(b"full", 0).unwrap();
    assert!(queue.start_send_timeout(b"more", 0, HOUR).is_pending());
    clock.advance(HOUR);
    assert_eq!(queue.collect_send(), Poll::Ready(Err(Error::TimedOut)));
    assert_eq!(queue.start_receive_timeout(&mut buf, HOUR), Poll::Ready(Ok(Received::new(4, 0))));
}

/// Milliseconds that another thread counts.
#[derive(Default)]
struct Counted(AtomicU64);

impl Clock for Counted {
    fn now(&self) -> Duration {
        Duration::from_millis(self.0.load(SeqCst))
    }
}

#[test]
fn a_clock_of_the_program_is_moved_by_another_thread() {
    let clock = Arc::new(Counted::default());
    let (_, queue) = by_clock(Arc::clone(&clock));
    let waiter = thread::spawn(move || queue.receive_timeout(&mut [0; 8], 50 * MILLI));
    for _ in 0..49 {
        thread::sleep(MILLI);
        clock.0.fetch_add(1, SeqCst);
    }
    assert!(!waiter.is_finished());
    // On a busy machine the wait may begin late.
    while !waiter.is_finished() {
        clock.0.fetch_add(10, SeqCst);
        thread::sleep(MILLI);
    }
    assert_eq!(waiter.join().unwrap(), Err(Error::TimedOut));
}

#[test]
fn a_wait_by_a_clock_that_stands_is_answered() {
    let (_, [here, there]) = System::builder().clock(Counted::default()).build_array().unwrap();
    let queue = here.open("/q", QUEUE).unwrap();
    let waiter = thread::spawn(move || {
        let queue = there.open("/q", QUEUE).unwrap();
        let first = queue.receive_timeout(&mut [0; 8], MILLI).map(|received| received.len);
        (first, queue.send_timeout(b"full", 0, MILLI), queue.send_timeout(b"more", 0, MILLI))
    });
    thread::sleep(30 * MILLI);
    queue.send(b"in time", 0).unwrap();
    while queue.attr().unwrap().curmsgs == 0 {
        thread::sleep(MILLI);
    }
    thread::sleep(30 * MILLI);
    assert_eq!(&*queue.receive_vec().unwrap(), b"full");
    assert_eq!(&*queue.receive_vec().unwrap(), b"more");
    assert_eq!(waiter.join().unwrap(), (Ok(7), Ok(()), Ok(())));
}

thread_local! {
    static MEDDLED: RefCell<Option<Rc<Queue<Process>>>> = const { RefCell::new(None) };
}

/// Makes calls with the process that waits.
struct Meddler(VirtualClock);

impl Clock for Meddler {
    fn now(&self) -> Duration {
        let queue = MEDDLED.with(|it| it.borrow_mut().take());
        if let Some(queue) = queue {
            if queue.attr() == Err(Error::Waiting) {
                assert!(!queue.cancel());
                assert_eq!(queue.collect_receive(&mut [0; 8]), Poll::Ready(Err(Error::NotWaiting)));
                assert_eq!(queue.start_receive(&mut [0; 8]), Poll::Ready(Err(Error::Waiting)));
                self.0.advance(SECOND);
            }
            MEDDLED.with(|it| *it.borrow_mut() = Some(queue));
        }
        self.0.now()
    }
}

#[test]
fn a_clock_does_not_end_the_wait_that_asks_it() {
    let (_, queue) = by_clock(Meddler(VirtualClock::new()));
    queue.send(b"full", 0).unwrap();
    let queue = Rc::new(queue);
    MEDDLED.with(|it| *it.borrow_mut() = Some(Rc::clone(&queue)));
    assert_eq!(queue.send_timeout(b"more", 0, MILLI), Err(Error::TimedOut));
    assert!(!queue.process().is_waiting());
    assert_eq!(queue.receive_vec().as_deref(), Ok(b"full".as_slice()));
}

/// Panics at the second read, unless the flag is set.
#[derive(Default)]
struct Fragile(AtomicU64, AtomicBool);

impl Clock for Fragile {
    fn now(&self) -> Duration {
        assert!(self.0.fetch_add(1, SeqCst) != 1 || self.1.load(SeqCst), "on purpose");
        Duration::ZERO
    }
}

#[test]
fn a_clock_that_panics_leaves_no_open_wait() {
    let clock = Arc::new(Fragile::default());
    let (_, queue) = by_clock(Arc::clone(&clock));
    // The first read computes the limit, the second starts the receive.
    assert!(catch_unwind(AssertUnwindSafe(|| queue.receive_timeout(&mut [0; 8], HOUR))).is_err());
    assert!(!queue.process().is_waiting());
    clock.0.store(0, SeqCst);
    clock.1.store(true, SeqCst);
    assert!(queue.start_receive_timeout(&mut [0; 8], HOUR).is_pending());
    clock.0.store(1, SeqCst);
    clock.1.store(false, SeqCst);
    assert!(catch_unwind(AssertUnwindSafe(|| queue.collect_receive(&mut [0; 8]))).is_err());
    assert!(queue.process().is_waiting(), "it is still there to be collected");
    assert_eq!(queue.collect_receive(&mut [0; 8]), Poll::Pending);
    assert!(queue.cancel());
    // The third read is that of the wait itself.
    clock.0.store(u64::MAX, SeqCst);
    assert!(catch_unwind(AssertUnwindSafe(|| queue.receive_timeout(&mut [0; 8], HOUR))).is_err());
    assert!(!queue.process().is_waiting());
    assert_eq!(queue.send(b"free", 0), Ok(()));
}

/// A clock that the test moves.
#[derive(Clone, Default)]
struct ByHand(Arc<AtomicU64>);

impl Clock for ByHand {
    fn now(&self) -> Duration {
        Duration::from_secs(self.0.load(SeqCst))
    }
}

/// How long after the clock has moved a wait ends that had slept for long.
fn ends_after(pause: Duration) -> Duration {
    let clock = ByHand::default();
    let (_, [one, two]) = System::builder().clock(clock.clone()).build_array().unwrap();
    let waiter = thread::spawn(move || {
        let queue = one.open("/q", QUEUE).unwrap();
        assert_eq!(queue.receive_timeout(&mut [0; 8], HOUR), Err(Error::TimedOut));
        Instant::now()
    });
    thread::sleep(pause);
    clock.0.store(3600, SeqCst);
    let moved = Instant::now();
    two.time_has_moved();
    waiter.join().unwrap().saturating_duration_since(moved)
}

#[test]
fn a_wait_ends_once_it_is_told_that_its_clock_has_moved() {
    // Without being told, such a wait looks every 80 milliseconds.
    let mut took: Vec<_> = (0..9).map(|k| ends_after((200 + 9 * k) * MILLI)).collect();
    took.sort();
    assert!(took[4] < 30 * MILLI, "{took:?}");
}
