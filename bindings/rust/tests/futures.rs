//! Sends and receives as futures.

use std::future::Future;
use std::pin::{pin, Pin};
use std::sync::atomic::{AtomicU32, Ordering::SeqCst};
use std::sync::Arc;
use std::task::{Context, Poll, Wake, Waker};
use std::thread::{self, Thread};
use std::time::Duration;
use yakyrombe::{Error, OpenOptions, Process, Queue, Received, System};

const ONE: OpenOptions = OpenOptions::read_write().create().limits(1, 8);

/// Counts how often it is woken, and unparks a thread.
struct Woken(AtomicU32, Thread);

impl Woken {
    fn new() -> (Arc<Woken>, Waker) {
        let woken = Arc::new(Woken(AtomicU32::new(0), thread::current()));
        (Arc::clone(&woken), Waker::from(woken))
    }

    fn count(&self) -> u32 {
        self.0.load(SeqCst)
    }
}

impl Wake for Woken {
    fn wake(self: Arc<Self>) {
        self.0.fetch_add(1, SeqCst);
        self.1.unpark();
    }
}

fn block_on<F: Future>(future: F) -> F::Output {
    let mut future = pin!(future);
    let (_, waker) = Woken::new();
    loop {
        match future.as_mut().poll(&mut Context::from_waker(&waker)) {
            Poll::Ready(output) => return output,
            Poll::Pending => thread::park(),
        }
    }
}

fn two() -> [Queue<Process>; 2] {
    let (_, processes): (_, [Process; 2]) = System::builder().build_array().unwrap();
    processes.map(|process| Queue::open(process, "/q", ONE).unwrap())
}

#[test]
fn what_need_not_wait_is_ready_at_once() {
    let [mut here, mut there] = two();
    let (woken, waker) = Woken::new();
    let mut context = Context::from_waker(&waker);
    assert_eq!(pin!(here.send_async(b"one", 3)).poll(&mut context), Poll::Ready(Ok(())));
    let mut buf = [0; 8];
    assert_eq!(
        pin!(there.receive_async(&mut buf)).poll(&mut context),
        Poll::Ready(Ok(Received::new(3, 3)))
    );
    assert_eq!(
        pin!(here.send_async(b"longer than it may be", 0)).poll(&mut context),
        Poll::Ready(Err(Error::MessageSize))
    );
    assert_eq!(woken.count(), 0);
}

#[test]
fn the_call_that_answers_wakes_a_receive_and_a_send() {
    let [mut here, there] = two();
    let (woken, waker) = Woken::new();
    let mut context = Context::from_waker(&waker);
    let mut buf = [0; 8];
    {
        let mut receive = pin!(here.receive_async(&mut buf));
        assert!(receive.as_mut().poll(&mut context).is_pending());
        assert!(receive.as_mut().poll(&mut context).is_pending());
        assert_eq!(woken.count(), 0);
        there.send(b"now", 1).unwrap();
        assert_eq!(woken.count(), 1);
        assert_eq!(receive.as_mut().poll(&mut context), Poll::Ready(Ok(Received::new(3, 1))));
    }
    there.send(b"full", 0).unwrap();
    let mut send = pin!(here.send_async(b"more", 2));
    assert!(send.as_mut().poll(&mut context).is_pending());
    there.try_receive_vec().unwrap();
    assert_eq!(woken.count(), 2);
    assert_eq!(send.as_mut().poll(&mut context), Poll::Ready(Ok(())));
    assert_eq!(&*there.receive_vec().unwrap(), b"more");
}

#[test]
fn every_call_that_answers_wakes() {
    type Send = fn(&Queue<Process>) -> Result<(), Error>;
    let sends: [Send; 5] = [
        |queue| queue.send(b"a", 0),
        |queue| queue.try_send(b"a", 0),
        |queue| queue.send_timeout(b"a", 0, Duration::from_secs(60)),
        |queue| match queue.start_send(b"a", 0) {
            Poll::Ready(result) => result,
            Poll::Pending => panic!("it need not wait"),
        },
        |queue| block_on(queue.process().open("/q", ONE)?.send_async(b"a", 0)),
    ];
    for send in sends {
        let [mut here, there] = two();
        let (woken, waker) = Woken::new();
        let mut buf = [0; 8];
        let mut receive = pin!(here.receive_async(&mut buf));
        assert!(receive.as_mut().poll(&mut Context::from_waker(&waker)).is_pending());
        send(&there).unwrap();
        assert_eq!(woken.count(), 1);
        assert!(receive.as_mut().poll(&mut Context::from_waker(&waker)).is_ready());
    }
}

#[test]
fn the_last_waker_is_woken() {
    let [mut here, there] = two();
    let ((first, first_waker), (second, second_waker)) = (Woken::new(), Woken::new());
    let mut buf = [0; 8];
    let mut receive = pin!(here.receive_async(&mut buf));
    assert!(receive.as_mut().poll(&mut Context::from_waker(&first_waker)).is_pending());
    assert!(receive.as_mut().poll(&mut Context::from_waker(&second_waker)).is_pending());
    there.send(b"now", 1).unwrap();
    assert_eq!((first.count(), second.count()), (0, 1));
}

#[test]
fn a_dropped_receive_loses_no_message() {
    let [mut here, there] = two();
    let (woken, waker) = Woken::new();
    let mut context = Context::from_waker(&waker);
    let mut buf = [0; 8];
    assert!(pin!(here.receive_async(&mut buf)).poll(&mut context).is_pending());
    there.send(b"later", 1).unwrap();
    assert_eq!(
        (woken.count(), Arc::strong_count(&woken)),
        (0, 2),
        "it was withdrawn, and its waker dropped"
    );
    assert_eq!(&*block_on(here.receive_vec_async()).unwrap(), b"later");
    {
        let mut receive = pin!(here.receive_async(&mut buf));
        assert!(receive.as_mut().poll(&mut context).is_pending());
        there.send(b"handed", 2).unwrap();
    }
    assert_eq!(&*block_on(here.receive_vec_async()).unwrap(), b"handed");
}

#[test]
fn a_dropped_send_is_withdrawn() {
    let [mut here, there] = two();
    let (_, waker) = Woken::new();
    there.send(b"full", 0).unwrap();
    assert!(pin!(here.send_async(b"gone", 0)).poll(&mut Context::from_waker(&waker)).is_pending());
    assert_eq!(&*there.receive_vec().unwrap(), b"full");
    assert_eq!(there.try_receive_vec(), Err(Error::Again));
}

#[test]
fn two_futures_of_one_process_do_not_wait_side_by_side() {
    let (_, [process]) = System::builder().build_array().unwrap();
    let (mut one, mut two) =
        (process.open("/one", ONE).unwrap(), process.open("/two", ONE).unwrap());
    let (_, waker) = Woken::new();
    let (mut first_buf, mut second_buf) = ([0; 8], [0; 8]);
    let mut first = pin!(one.receive_async(&mut first_buf));
    assert!(first.as_mut().poll(&mut Context::from_waker(&waker)).is_pending());
    let second = pin!(two.receive_async(&mut second_buf)).poll(&mut Context::from_waker(&waker));
    assert_eq!(second, Poll::Ready(Err(Error::Waiting)));
}

#[test]
#[should_panic(expected = "polled after it was ready")]
fn a_future_that_was_ready_is_not_polled_again() {
    let [mut here, _there] = two();
    let (_, waker) = Woken::new();
    let mut send = pin!(here.send_async(b"once", 0));
    assert!(send.as_mut().poll(&mut Context::from_waker(&waker)).is_ready());
    let _ = send.as_mut().poll(&mut Context::from_waker(&waker));
}

fn is_send<T: Send>(value: T) -> T {
    value
}

/// Half of the threads send by futures, and half receive by them.
fn pass_messages(count: usize, rounds: u32) {
    let (_, processes) = System::builder().processes(count).build().unwrap();
    let members: Vec<_> = processes
        .into_iter()
        .map(|process| {
            let is_sender = process.number() % 2 == 1;
            let mut queue = Queue::open(process, "/q", ONE).unwrap();
            let task = is_send(async move {
                let mut sum = 0;
                for number in 0..rounds {
                    let mut bytes = [0; 8];
                    if is_sender {
                        bytes[..4].copy_from_slice(&number.to_le_bytes());
                        queue.send_async(&bytes, 0).await?;
                        sum += u64::from(number);
                    } else {
                        queue.receive_async(&mut bytes).await?;
                        sum += u64::from_le_bytes(bytes);
                    }
                }
                Ok::<(bool, u64), Error>((is_sender, sum))
            });
            let task: Pin<Box<dyn Future<Output = _> + Send>> = Box::pin(task);
            thread::spawn(move || block_on(task).unwrap())
        })
        .collect();
    let sums: Vec<(bool, u64)> = members.into_iter().map(|member| member.join().unwrap()).collect();
    let sum_of = |is_sender| sums.iter().filter(|it| it.0 == is_sender).map(|it| it.1).sum::<u64>();
    assert_eq!(sum_of(true), sum_of(false));
    assert_eq!(sum_of(true), count as u64 / 2 * u64::from(rounds) * u64::from(rounds - 1) / 2);
}

#[test]
fn two_threads_pass_messages_by_futures() {
    pass_messages(2, 20_000);
}

#[test]
fn eight_threads_pass_messages_by_futures() {
    pass_messages(8, 4_000);
}

#[test]
fn thirty_two_threads_pass_messages_by_futures() {
    pass_messages(32, 500);
}

#[test]
fn a_future_is_answered_by_a_thread_that_blocks() {
    let [mut here, there] = two();
    let thread = thread::spawn(move || {
        for number in 0..2_000_u32 {
            there.send(&number.to_le_bytes(), 0).unwrap();
        }
    });
    for number in 0..2_000_u32 {
        let message = block_on(here.receive_vec_async()).unwrap();
        assert_eq!(*message, number.to_le_bytes());
    }
    thread.join().unwrap();
}

#[test]
fn the_drop_of_the_last_sender_wakes_a_receive() {
    let (_, [one, two]) = System::builder().build_array().unwrap();
    let options = OpenOptions::read().create().disconnecting();
    let mut here = Queue::open(one, "/q", options).unwrap();
    let there = two.open("/q", OpenOptions::write()).unwrap();
    let (woken, waker) = Woken::new();
    let mut context = Context::from_waker(&waker);
    let mut future = Box::pin(here.receive_vec_async());
    assert!(future.as_mut().poll(&mut context).is_pending());
    drop(there);
    assert_eq!(woken.count(), 1);
    assert_eq!(future.as_mut().poll(&mut context), Poll::Ready(Err(Error::Disconnected)));
    drop(future);
    assert!(!here.process().is_waiting());
}
