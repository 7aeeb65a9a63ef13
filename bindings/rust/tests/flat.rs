//! Memory does not grow: 8 threads pass messages through one queue, and open, use and unlink queues
//! of their own. After the first 100,000 sends and receives, the resident size stays within 1 MB,
//! and there are fewer than 0.001 minor page faults for each call.
#![cfg(target_os = "linux")]

use std::fs::read_to_string;
use std::sync::Barrier;
use std::thread;
use yakyrombe::{Error, OpenOptions, Process, Queue, System};

const THREADS: usize = 8;
const FIRST_CALLS: u64 = 100_000;
const MOST_BYTES: u64 = 1_000_000;
const CALLS_A_FAULT: u64 = 1_000;
/// After how many calls on the shared queue a thread makes the next queue of its own.
const BETWEEN_OWN: u64 = 64;
const MSGSIZE: usize = 32;
const QUEUE: OpenOptions = OpenOptions::read_write().create().limits(10, MSGSIZE);

fn number_at(words: &str, place: usize) -> u64 {
    words.split_whitespace().nth(place).unwrap().parse().unwrap()
}

/// The resident size of the program in bytes, and how many minor page faults it had.
#[derive(Debug)]
struct Taken {
    resident: u64,
    faults: u64,
}

impl Taken {
    fn now() -> Taken {
        // This file counts page by page. `status` adds up counts of each processor, which can lag
        // by megabytes.
        let sizes = read_to_string("/proc/self/smaps_rollup").unwrap();
        let resident = sizes.lines().find_map(|line| line.strip_prefix("Rss:")).unwrap();
        let stat = read_to_string("/proc/self/stat").unwrap();
        // The name of the program, in brackets, can contain spaces.
        let behind_name = stat.rsplit(')').next().unwrap();
        Taken { resident: number_at(resident, 0) * 1_024, faults: number_at(behind_name, 7) }
    }

    fn is_flat_until(&self, after: &Taken, calls: u64) -> bool {
        self.resident.abs_diff(after.resident) <= MOST_BYTES
            && (after.faults - self.faults) * CALLS_A_FAULT < calls
    }
}

/// Opens a queue, takes a notice from it, and destroys it with a message in it.
fn use_own_queue(process: &Process) -> Result<(), Error> {
    let name = format!("/own-{}", process.number());
    let own = process.open(&name, QUEUE.exclusive())?;
    own.notify(7)?;
    own.send(b"first", 1)?;
    own.send(b"second", 2)?;
    assert_eq!(process.next_notice()?, Some(7));
    assert_eq!(own.receive_vec()?.len(), 6);
    process.unlink(&name)
}

/// Half of the processes send, and half receive.
fn pass(queue: &Queue<&Process>, calls: u64) -> Result<(), Error> {
    let lengths = (0..=MSGSIZE).cycle();
    for ((i, len), priority) in (0..calls).zip(lengths).zip([0, 1, 2].into_iter().cycle()) {
        if queue.process().number() % 2 == 0 {
            queue.send(&[0; MSGSIZE][..len], priority)?;
        } else {
            queue.receive(&mut [0; MSGSIZE])?;
        }
        if i % BETWEEN_OWN == 0 {
            use_own_queue(queue.process())?;
        }
    }
    Ok(())
}

fn take_part(process: &Process, barrier: &Barrier, later_calls: u64) {
    let queue = process.open("/flat", QUEUE).unwrap();
    pass(&queue, FIRST_CALLS / THREADS as u64).unwrap();
    barrier.wait();
    barrier.wait();
    pass(&queue, later_calls / THREADS as u64).unwrap();
    barrier.wait();
}

/// What the program takes after the first calls on the shared queue, and after the later ones.
fn taken(processes: Vec<Process>, later_calls: u64) -> (Taken, Taken) {
    let barrier = Barrier::new(THREADS + 1);
    thread::scope(|scope| {
        for process in processes {
            scope.spawn(|| {
                let process = process;
                take_part(&process, &barrier, later_calls);
            });
        }
        barrier.wait();
        let before = Taken::now();
        barrier.wait();
        barrier.wait();
        (before, Taken::now())
    })
}

fn processes(is_stored: bool) -> Vec<Process> {
    System::builder().processes(THREADS).journal(is_stored).build().unwrap().1
}

fn stays_flat(calls: u64) {
    let later_calls = calls - FIRST_CALLS;
    let (before, after) = taken(processes(false), later_calls);
    println!("{later_calls} calls: from {before:?} to {after:?}");
    assert!(before.is_flat_until(&after, later_calls), "{before:?}, {after:?}");
}

/// These are one test, because the memory is that of the whole program.
#[test]
fn memory_is_flat_without_a_journal_and_grows_with_one() {
    stays_flat(1_000_000);
    let (before, after) = taken(processes(true), 100_000);
    assert!(!before.is_flat_until(&after, 100_000), "{before:?}, {after:?}");
}

#[test]
#[ignore = "takes minutes: cargo test --release --test flat -- --ignored --nocapture"]
fn memory_is_flat_over_a_hundred_million_calls() {
    stays_flat(100_000_000);
}
