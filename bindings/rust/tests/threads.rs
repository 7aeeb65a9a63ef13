//! Processes in threads of their own.

use std::sync::mpsc;
use std::thread;
use std::time::{Duration, Instant};
use yakyrombe::{Error, OpenOptions, Process, Queue, Received, System};

const OPTIONS: OpenOptions = OpenOptions::read_write().create().limits(10, 8);

fn send_all(process: Process, rounds: u32) -> (Process, u64) {
    let queue = Queue::open(process, "/all", OPTIONS).unwrap();
    let mut sum = 0;
    for i in 0..rounds {
        let mut message = [0; 8];
        message[..4].copy_from_slice(&queue.process().number().to_le_bytes());
        message[4..].copy_from_slice(&i.to_le_bytes());
        queue.send(&message, 3).unwrap();
        sum += u64::from(i);
    }
    (queue.close().unwrap(), sum)
}

// A receiver gets the messages of one sender and one priority in the order of their sends.
fn receive_all(process: Process, rounds: u32) -> (Process, u64) {
    let queue = Queue::open(process, "/all", OPTIONS).unwrap();
    let mut next = [0; 33];
    let mut sum = 0;
    for _ in 0..rounds {
        let mut message = [0; 8];
        assert_eq!(queue.receive(&mut message), Ok(Received::new(8, 3)));
        let sender = u32::from_le_bytes(message[..4].try_into().unwrap()) as usize;
        let number = u32::from_le_bytes(message[4..].try_into().unwrap());
        assert!(number >= next[sender]);
        next[sender] = number + 1;
        sum += u64::from(number);
    }
    (queue.close().unwrap(), sum)
}

// Half of the processes send and half receive. In the end each message was received once.
fn pass_messages(processes: Vec<Process>, rounds: u32) -> Process {
    let count = processes.len();
    let members: Vec<_> = processes
        .into_iter()
        .map(|process| {
            let part = if process.number() % 2 == 1 { send_all } else { receive_all };
            thread::spawn(move || part(process, rounds))
        })
        .collect();
    let mut ended: Vec<(Process, u64)> =
        members.into_iter().map(|member| member.join().unwrap()).collect();
    let sum_of = |odd: u32| {
        ended
            .iter()
            .filter(|(process, _)| process.number() % 2 == odd)
            .map(|(_, sum)| sum)
            .sum::<u64>()
    };
    assert_eq!(sum_of(1), sum_of(0));
    assert_eq!(sum_of(1), count as u64 / 2 * u64::from(rounds) * u64::from(rounds - 1) / 2);
    ended.remove(0).0
}

fn pass_messages_with_and_without_a_journal(count: usize, rounds: u32) {
    pass_messages(System::builder().processes(count).build().unwrap().1, rounds);
    let last =
        pass_messages(System::builder().processes(count).journal(true).build().unwrap().1, rounds);
    assert_eq!(last.check(), Ok(()));
}

#[test]
fn two_threads_pass_messages() {
    pass_messages_with_and_without_a_journal(2, 2000);
}

#[test]
fn eight_threads_pass_messages() {
    pass_messages_with_and_without_a_journal(8, 500);
}

#[test]
fn thirty_two_threads_pass_messages() {
    pass_messages_with_and_without_a_journal(32, 100);
}

fn two() -> [Process; 2] {
    System::builder().build_array().unwrap().1
}

fn two_with_journal() -> [Process; 2] {
    System::builder().journal(true).build_array().unwrap().1
}

#[test]
fn a_receive_that_waits_is_answered_by_another_thread() {
    let [here, there] = two_with_journal();
    let queue = here.open("/late", OPTIONS).unwrap();
    let waiter = thread::spawn(move || {
        let queue = there.open("/late", OPTIONS).unwrap();
        let mut buf = [0; 8];
        let received = queue.receive(&mut buf);
        (received, buf)
    });
    thread::sleep(Duration::from_millis(50));
    here.unlink("/late").unwrap();
    queue.send(b"late", 9).unwrap();
    assert_eq!(waiter.join().unwrap(), (Ok(Received::new(4, 9)), *b"late\0\0\0\0"));
    assert!(here.journal().unwrap().lines().any(|line| line.contains("-> handed")));
}

#[test]
fn a_send_that_waits_is_admitted_by_another_thread() {
    let [here, there] = two_with_journal();
    let options = OPTIONS.limits(1, 8);
    let queue = here.open("/full", options).unwrap();
    queue.send(b"first", 0).unwrap();
    let waiter = thread::spawn(move || there.open("/full", options).unwrap().send(b"second", 0));
    thread::sleep(Duration::from_millis(50));
    let mut buf = [0; 8];
    for message in [b"first".as_slice(), b"second"] {
        let received = queue.receive(&mut buf).unwrap();
        assert_eq!(&buf[..received.len], message);
    }
    assert_eq!(waiter.join().unwrap(), Ok(()));
    assert!(here.journal().unwrap().lines().any(|line| line.contains("admitted")));
}

#[test]
fn a_deadline_ends_a_wait_and_leaves_the_process_free() {
    let [here, _there] = two();
    let queue = here.open("/q", OPTIONS.limits(1, 8)).unwrap();
    let mut buf = [0; 8];
    let timeout = Duration::from_millis(30);
    let start = Instant::now();
    assert_eq!(queue.receive_timeout(&mut buf, timeout), Err(Error::TimedOut));
    assert!(start.elapsed() >= timeout);
    queue.send(b"a", 0).unwrap();
    assert_eq!(queue.send_timeout(b"b", 0, timeout), Err(Error::TimedOut));
    assert!(start.elapsed() >= 2 * timeout);
    assert_eq!(queue.receive(&mut buf), Ok(Received::new(1, 0)));
    assert_eq!(queue.try_receive(&mut buf), Err(Error::Again));
}

#[test]
fn a_wait_with_a_deadline_is_answered_before_that() {
    let [here, there] = two();
    let queue = here.open("/q", OPTIONS).unwrap();
    let waiter = thread::spawn(move || {
        there.open("/q", OPTIONS).unwrap().receive_timeout(&mut [0; 8], Duration::from_secs(60))
    });
    thread::sleep(Duration::from_millis(30));
    queue.send(b"in time", 1).unwrap();
    assert_eq!(waiter.join().unwrap(), Ok(Received::new(7, 1)));
}

#[test]
fn a_process_goes_from_thread_to_thread_with_what_it_has_open() {
    let [here, there] = two();
    let queue = here.open("/q", OPTIONS).unwrap();
    let (give, take) = mpsc::channel();
    let last = thread::spawn(move || {
        let queue: Queue<Process> = take.recv().unwrap();
        queue.send(b"moved", 0)
    });
    let first =
        thread::spawn(move || give.send(Queue::open(there, "/q", OPTIONS).unwrap()).unwrap());
    first.join().unwrap();
    assert_eq!(last.join().unwrap(), Ok(()));
    assert_eq!(queue.receive(&mut [0; 8]), Ok(Received::new(5, 0)));
}

/// How often a thread of this process has gone to sleep.
#[cfg(target_os = "linux")]
fn sleeps_of(thread: &std::path::Path) -> u64 {
    let status = std::fs::read_to_string(thread.join("status")).unwrap();
    let line = status.lines().find(|line| line.starts_with("voluntary_ctxt_switches:")).unwrap();
    line.rsplit('\t').next().unwrap().trim().parse().unwrap()
}

// Eight threads that wait for a message, one of them until a deadline that is far away, make no
// context switch in five seconds.
#[cfg(target_os = "linux")]
#[test]
fn who_waits_for_a_message_sleeps_until_it_comes() {
    let (_, [last, waiting @ ..]): (_, [Process; 9]) =
        System::builder().processes(9).build_array().unwrap();
    let (tell, told) = mpsc::channel();
    let waiters = waiting.map(|process| {
        let tell = tell.clone();
        thread::spawn(move || {
            let name = format!("/{}", process.number());
            let queue = Queue::open(process, &name, OPTIONS).unwrap();
            let own = std::fs::read_link("/proc/thread-self").unwrap();
            tell.send(std::path::Path::new("/proc").join(own)).unwrap();
            match name.as_str() {
                "/2" => queue.receive_timeout(&mut [0; 8], Duration::from_secs(3600)),
                _ => queue.receive(&mut [0; 8]),
            }
        })
    });
    let threads: Vec<_> = told.iter().take(8).collect();
    let sleeps = || threads.iter().map(|thread| sleeps_of(thread)).sum::<u64>();
    // Until each has gone to sleep, at most for ten seconds.
    let mut before = sleeps();
    for _ in 0..20 {
        thread::sleep(Duration::from_millis(500));
        let now = sleeps();
        if now == before {
            break;
        }
        before = now;
    }
    thread::sleep(Duration::from_secs(5));
    let now = sleeps();
    for number in 2..10 {
        last.open(format!("/{number}"), OPTIONS).unwrap().send(b"x", 0).unwrap();
    }
    for waiter in waiters {
        assert_eq!(waiter.join().unwrap(), Ok(Received::new(1, 0)));
    }
    assert_eq!(now, before);
}
