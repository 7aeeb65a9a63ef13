//! Receives that fail when no sender is left.

use std::mem::forget;
use std::sync::Barrier;
use std::task::Poll;
use std::thread;
use std::time::{Duration, Instant};
use yakyrombe::Error::*;
use yakyrombe::{OpenOptions, Process, Queue, System, VirtualClock};

const NEW: OpenOptions = OpenOptions::read_write().create().limits(4, 8);
const TO_SEND: OpenOptions = OpenOptions::write().create().limits(4, 8);
const TO_RECEIVE: OpenOptions = OpenOptions::read().create().limits(4, 8).disconnecting();
const SOON: Duration = Duration::from_millis(20);
const LONG: Duration = Duration::from_secs(60);

/// A queue that disconnects, and a sender of it.
fn two() -> [Queue<Process>; 2] {
    let (_, [one, two]) = System::builder().journal(true).build_array().unwrap();
    [Queue::open(one, "/q", TO_RECEIVE).unwrap(), Queue::open(two, "/q", TO_SEND).unwrap()]
}

#[test]
fn messages_come_before_the_error_in_each_receive() {
    let [here, there] = two();
    let mut buf = [0; 8];
    for round in 0..6_u8 {
        there.send(&[round], 0).unwrap();
        if round > 2 {
            here.receive_vec().unwrap();
        }
    }
    assert_eq!(there.process().check(), Ok(()));
    drop(there);
    assert_eq!(here.receive(&mut buf).map(|it| it.len), Ok(1));
    assert_eq!(here.try_receive(&mut buf).map(|it| it.len), Ok(1));
    assert_eq!(here.receive_vec_timeout(SOON).as_deref(), Ok([5].as_slice()));
    assert_eq!(here.receive(&mut buf), Err(Disconnected));
    assert_eq!(here.receive_timeout(&mut buf, LONG), Err(Disconnected));
    assert_eq!(here.receive_deadline(&mut buf, Instant::now() + LONG), Err(Disconnected));
    assert_eq!(here.try_receive(&mut buf), Err(Disconnected));
    assert_eq!(here.start_receive(&mut buf), Poll::Ready(Err(Disconnected)));
    assert_eq!((here.iter().count(), here.try_iter().count()), (0, 0));
    here.set_nonblocking(true).unwrap();
    assert_eq!(here.receive(&mut buf), Err(Disconnected));
    assert!(!here.process().is_waiting());
    assert_eq!(here.process().check(), Ok(()));
}

#[test]
fn a_receive_that_waits_is_woken_by_the_drop_of_the_last_sender() {
    for receive in [
        (|queue| queue.receive_vec()) as fn(&Queue<Process>) -> _,
        |queue| queue.receive_vec_timeout(LONG),
        |queue| queue.receive_vec_deadline(Instant::now() + LONG),
        |queue| {
            assert!(queue.start_receive(&mut [0; 8])?.is_pending() && queue.wait_timeout(LONG));
            assert_eq!(queue.collect_receive(&mut [0; 8]), Poll::Ready(Err(Disconnected)));
            Err(Disconnected)
        },
    ] {
        let [here, there] = two();
        let second = there.process().open("/q", NEW).unwrap();
        let start = Instant::now();
        let waiter = thread::spawn(move || receive(&here));
        thread::sleep(SOON);
        second.close().unwrap();
        thread::sleep(SOON);
        assert!(!waiter.is_finished(), "a sender is left");
        drop(there);
        assert_eq!(waiter.join().unwrap(), Err(Disconnected));
        assert!(start.elapsed() < LONG);
    }
}

#[test]
fn a_receive_that_waits_is_answered() {
    let [here, there] = two();
    let waiter = thread::spawn(move || (here.receive_vec(), here.receive_vec_timeout(SOON)));
    thread::sleep(SOON);
    there.send(b"late", 3).unwrap();
    let (message, none) = waiter.join().unwrap();
    assert_eq!((message.as_deref(), none), (Ok(b"late".as_slice()), Err(TimedOut)));
}

/// Without the option, and as long as somebody may send.
#[test]
fn other_receives_wait() {
    let (_, [one, two]) = System::builder().build_array().unwrap();
    let early = one.open("/q", TO_RECEIVE).unwrap();
    assert_eq!(early.receive_vec_timeout(SOON), Err(TimedOut), "no sender has come");
    assert_eq!(early.try_receive_vec(), Err(Again));
    let plain = two.open("/q", NEW).unwrap();
    let both = one.open("/q", NEW.disconnecting()).unwrap();
    drop(plain);
    assert_eq!(both.receive_vec_timeout(SOON), Err(TimedOut), "it could send itself");
    forget(two.open("/q", TO_SEND).unwrap());
    drop(both);
    assert_eq!(early.try_receive_vec(), Err(Again), "a forgotten queue is not dropped");
    let plain = two.open("/r", OpenOptions::read().create()).unwrap();
    drop(one.open("/r", TO_SEND).unwrap());
    assert_eq!(plain.receive_vec_timeout(SOON), Err(TimedOut), "it did not ask for it");
}

#[test]
fn a_name_that_is_taken_off_means_another_queue() {
    let (_, [one, two]) = System::builder().build_array().unwrap();
    let old = one.open("/q", TO_RECEIVE).unwrap();
    let sender = two.open("/q", TO_SEND).unwrap();
    two.unlink("/q").unwrap();
    let new = one.open("/q", TO_RECEIVE).unwrap();
    let other = two.open("/q", TO_SEND).unwrap();
    drop(sender);
    assert_eq!(old.try_receive_vec(), Err(Disconnected));
    assert_eq!(new.try_receive_vec(), Err(Again));
    drop(other);
    assert_eq!(new.try_receive_vec(), Err(Disconnected));
    let again = two.open("/q", TO_SEND).unwrap();
    assert_eq!(new.try_receive_vec(), Err(Again), "a sender may come back");
    drop(again);
}

#[test]
fn a_failed_close_or_a_panic_also_ends_a_sender() {
    let [here, there] = two();
    let ended = thread::spawn(move || {
        let _there = there;
        panic!("on purpose");
    });
    assert_eq!(here.receive_vec(), Err(Disconnected));
    assert!(ended.join().is_err());

    let (_, [one, two]) = System::builder().bounded(6, 100).build_array().unwrap();
    let here = one.open("/q", TO_RECEIVE).unwrap();
    let there = two.open("/q", TO_SEND).unwrap();
    there.send(b"last", 0).unwrap();
    assert_eq!(here.start_receive(&mut [0; 8]), Poll::Ready(Ok(yakyrombe::Received::new(4, 0))));
    while one.room().entries > 0 {
        here.attr().unwrap();
    }
    assert_eq!(there.close().map(drop).map_err(yakyrombe::Error::from), Err(JournalFull));
    assert!(!here.is_answered());
    assert_eq!(here.try_receive_vec(), Err(JournalFull));
}

#[test]
fn in_virtual_time_a_receive_disconnects_too() {
    let (_, [one, two]) = System::builder().clock(VirtualClock::new()).build_array().unwrap();
    let here = one.open("/q", TO_RECEIVE).unwrap();
    let there = two.open("/q", TO_SEND).unwrap();
    assert_eq!(here.receive_vec_timeout(LONG), Err(TimedOut));
    drop(there);
    assert_eq!(here.receive_vec_timeout(LONG), Err(Disconnected));
    let there = two.open("/q", TO_SEND).unwrap();
    there.send(b"again", 0).unwrap();
    assert_eq!(here.receive_vec_timeout(LONG).as_deref(), Ok(b"again".as_slice()));
}

/// Each message is received once, and then each receiver is told that no sender is left.
#[test]
fn no_message_and_no_end_is_lost() {
    const SENDERS: usize = 3;
    const EACH: usize = 500;
    for _ in 0..20 {
        let (_, processes) = System::builder().processes(2 * SENDERS).build().unwrap();
        let barrier = Barrier::new(2 * SENDERS);
        let received: usize = thread::scope(|scope| {
            let parts: Vec<_> = processes
                .into_iter()
                .enumerate()
                .map(|(place, process)| {
                    let barrier = &barrier;
                    scope.spawn(move || {
                        let sends = place % 2 == 0;
                        let options = if sends { TO_SEND } else { TO_RECEIVE };
                        let queue = Queue::open(process, "/q", options).unwrap();
                        barrier.wait();
                        if sends {
                            (0..EACH).for_each(|_| queue.send(b"message", 0).unwrap());
                            0
                        } else {
                            queue.iter().map(Result::unwrap).count()
                        }
                    })
                })
                .collect();
            parts.into_iter().map(|part| part.join().unwrap()).sum()
        });
        assert_eq!(received, SENDERS * EACH);
    }
}
