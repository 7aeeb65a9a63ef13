//! Receives from one of several queues.

use std::rc::Rc;
use std::thread;
use std::time::{Duration, Instant};
use yakyrombe::Error::*;
use yakyrombe::{select, select_timeout, Message, OpenOptions, Process, Queue, System};

const NEW: OpenOptions = OpenOptions::read_write().create().limits(4, 8);
const SOON: Duration = Duration::from_millis(20);
const LONG: Duration = Duration::from_secs(60);

type Selected = Result<(usize, Message), yakyrombe::Error>;

/// Three queues, each of its own process, and a process that sends.
fn four() -> ([Queue<Process>; 3], Process) {
    let (_, [one, two, three, sender]) = System::builder().journal(true).build_array().unwrap();
    let open = |process, name| Queue::open(process, name, NEW).unwrap();
    ([open(one, "/1"), open(two, "/2"), open(three, "/3")], sender)
}

#[allow(clippy::unnecessary_wraps)]
fn got(place: usize, priority: u32, bytes: &[u8]) -> Selected {
    Selected::Ok((place, Message::new(priority, bytes.to_vec())))
}

#[test]
fn a_message_that_is_there_is_taken_and_the_first_queue_comes_first() {
    let ([one, two, three], sender) = four();
    sender.open("/3", NEW).unwrap().send(b"third", 1).unwrap();
    sender.open("/2", NEW).unwrap().send(b"second", 2).unwrap();
    let queues = [&one, &two, &three];
    assert_eq!(select(&queues), got(1, 2, b"second"));
    assert_eq!(select_timeout(&queues, Duration::ZERO), got(2, 1, b"third"));
    assert_eq!(select_timeout(&queues, Duration::ZERO), Err(TimedOut));
    assert!(queues.iter().all(|queue| !queue.process().is_waiting()));
    assert_eq!(sender.check(), Ok(()));
}

#[test]
fn a_select_that_waits_is_woken_by_each_of_its_queues() {
    for name in ["/1", "/2", "/3"] {
        let ([one, two, three], sender) = four();
        let waiter = thread::spawn(move || select_timeout(&[&one, &two, &three], LONG));
        thread::sleep(SOON);
        sender.open(name, NEW).unwrap().send(name.as_bytes(), 3).unwrap();
        let (place, message) = waiter.join().unwrap().unwrap();
        assert_eq!((format!("/{}", place + 1).as_bytes(), message.priority), (&*message, 3));
        assert_eq!(sender.check(), Ok(()));
    }
}

#[test]
fn a_select_ends_at_its_time_out() {
    let ([one, two, three], _sender) = four();
    let start = Instant::now();
    assert_eq!(select_timeout(&[&one, &two, &three], SOON), Err(TimedOut));
    assert!((SOON..LONG).contains(&start.elapsed()));
}

#[test]
fn two_queues_of_one_process_are_refused() {
    let (_, [one, two]) = System::builder().build_array().unwrap();
    let one = Rc::new(one);
    let open = |process: &Rc<Process>, name| Queue::open(Rc::clone(process), name, NEW).unwrap();
    let (first, second, other) = (open(&one, "/1"), open(&one, "/2"), open(&Rc::new(two), "/1"));
    first.send(b"here", 0).unwrap();
    assert_eq!(select(&[&first, &second]), Err(Waiting));
    assert_eq!(select(&[&first, &first]), Err(Waiting));
    assert_eq!(select(&[&other, &second]), got(0, 0, b"here"));
    assert!(other.start_receive(&mut [0; 8]).is_pending());
    assert_eq!(select(&[&other, &second]), Err(Waiting));
    assert!(other.cancel(), "its wait is still open");
}

#[test]
fn a_queue_without_senders_is_left_out() {
    let (_, [one, two, sender]) = System::builder().build_array().unwrap();
    let options = OpenOptions::read().create().limits(4, 8).disconnecting();
    let (first, second) = (one.open("/1", options).unwrap(), two.open("/2", options).unwrap());
    drop(sender.open("/1", OpenOptions::write()).unwrap());
    let waiter = thread::spawn(move || {
        let there = sender.open("/2", OpenOptions::write()).unwrap();
        thread::sleep(SOON);
        there.send(b"last", 0).unwrap();
        thread::sleep(SOON);
    });
    assert_eq!(select(&[&first, &second]), got(1, 0, b"last"));
    assert_eq!(select(&[&first, &second]), Err(Disconnected));
    assert_eq!(select::<&Process>(&[]), Err(Disconnected));
    waiter.join().unwrap();
}

/// A message that was handed to a wait that lost comes with the next receive by its queue.
#[test]
fn no_message_is_lost() {
    const EACH: u32 = 2_000;
    let ([one, two, three], sender) = four();
    let sends = thread::spawn(move || {
        let queues = ["/1", "/2", "/3"].map(|name| sender.open(name, NEW).unwrap());
        for round in 0..EACH {
            for queue in &queues {
                queue.send(&round.to_le_bytes(), 0).unwrap();
            }
        }
        drop(queues);
        sender
    });
    let mut next = [0_u32; 3];
    for _ in 0..3 * EACH {
        let (place, message) = select(&[&one, &two, &three]).unwrap();
        assert_eq!(*message, next[place].to_le_bytes());
        next[place] += 1;
    }
    assert_eq!(next, [EACH; 3]);
    let sender = sends.join().unwrap();
    assert_eq!(sender.check(), Ok(()));
}
