//! Processes that threads share.
// A method is not general enough for the lifetime of the process.
#![allow(clippy::redundant_closure_for_method_calls)]

use std::panic::{catch_unwind, AssertUnwindSafe};
use std::sync::Arc;
use std::task::Poll;
use std::thread;
use std::time::Duration;
use yakyrombe::Error::*;
use yakyrombe::{OpenOptions, Process, Received, SharedProcess, SharedQueue, System};

const NEW: OpenOptions = OpenOptions::read_write().create().limits(4, 8);
const SOON: Duration = Duration::from_millis(20);

fn is_shared<T: Send + Sync + 'static>(_: &T) {}

/// Two queues of one process, and another process.
fn two() -> ([SharedQueue; 2], Process) {
    let (_, [one, other]) = System::builder().journal(true).build_array().unwrap();
    let process = SharedProcess::new(one);
    (["/1", "/2"].map(|name| process.open(name, NEW).unwrap()), other)
}

fn count(process: &Process, call: &str) -> usize {
    process.journal().unwrap().lines().filter(|line| line.contains(call)).count()
}

#[test]
fn the_queues_move_together_and_are_closed() {
    let ([first, second], other) = two();
    is_shared(&first);
    is_shared(first.process());
    let there = other.open("/1", NEW).unwrap();
    let back = other.open("/2", NEW).unwrap();
    let relay = thread::spawn(move || {
        for _ in 0..100 {
            let message = first.with(|queue| queue.receive_vec()).unwrap();
            second.with(|queue| queue.send(&message, message.priority)).unwrap();
        }
    });
    for number in 0..100_u8 {
        there.send(&[number], 7).unwrap();
        assert_eq!(*back.receive_vec().unwrap(), [number]);
    }
    relay.join().unwrap();
    assert_eq!(count(&other, " 1 close "), 2);
    assert_eq!(count(&other, " 1 getattr "), 1, "the length of a message is kept");
    assert_eq!(other.check(), Ok(()));
}

#[test]
fn threads_take_turns() {
    let ([first, second], other) = two();
    let queues = Arc::new([first, second]);
    let senders: Vec<_> = (0..4)
        .map(|number| {
            let queues = Arc::clone(&queues);
            thread::spawn(move || {
                for _ in 0..200 {
                    // The queue may be full: nobody must wait for room with the process.
                    let queue = &queues[number % 2];
                    while queue.with(|queue| queue.try_send(b"x", 0)) == Err(Again) {
                        thread::yield_now();
                    }
                }
            })
        })
        .collect();
    for name in ["/1", "/2"] {
        let queue = other.open(name, NEW).unwrap();
        for _ in 0..400 {
            queue.receive_vec().unwrap();
        }
    }
    for sender in senders {
        sender.join().unwrap();
    }
    assert_eq!(other.check(), Ok(()));
}

#[test]
fn a_wait_in_two_parts_stays_open_between_calls() {
    let ([first, second], other) = two();
    assert!(first.with(|queue| queue.start_receive(&mut [0; 8])).is_pending());
    assert_eq!(second.with(|queue| queue.send(b"a", 0)), Err(Waiting));
    other.open("/1", NEW).unwrap().send(b"kept", 3).unwrap();
    let mut buf = [0; 8];
    let collected = first.with(|queue| queue.collect_receive(&mut buf));
    assert_eq!(collected, Poll::Ready(Ok(Received::new(4, 3))));
    // A message that a cancelled wait had stays with the queue.
    assert!(first.with(|queue| queue.start_receive(&mut [0; 8])).is_pending());
    other.open("/1", NEW).unwrap().send(b"again", 3).unwrap();
    assert!(!first.with(|queue| queue.cancel()));
    assert_eq!(first.with(|queue| queue.receive_vec()).as_deref(), Ok(b"again".as_slice()));
}

#[test]
fn a_panic_leaves_the_queue_open() {
    let ([first, _second], other) = two();
    let panicked = catch_unwind(AssertUnwindSafe(|| first.with(|_| panic!("on purpose"))));
    assert!(panicked.is_err());
    assert_eq!(first.with(|queue| queue.send(b"a", 0)), Ok(()));
    assert_eq!(count(&other, " close "), 0);
    drop(first);
    assert_eq!(count(&other, " 1 close "), 1);
}

#[test]
fn it_is_a_sender_as_long_as_it_lives() {
    let ([first, _second], other) = two();
    let there = other.open("/1", OpenOptions::read().disconnecting()).unwrap();
    first.with(|queue| queue.send(b"last", 0)).unwrap();
    assert_eq!(there.receive_vec().as_deref(), Ok(b"last".as_slice()));
    let waiter = thread::spawn(move || {
        thread::sleep(SOON);
        drop(first);
    });
    assert_eq!(there.receive_vec(), Err(Disconnected));
    waiter.join().unwrap();
}
