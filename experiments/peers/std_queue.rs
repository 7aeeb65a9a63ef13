//! The workloads `pair`, `deep` and `crowd` of mqbench over a `Mutex` and a `BinaryHeap`.
//!
//! The first argument says when a condition variable is notified: `each`, at each call, or
//! `waiting`, only if a thread waits.
use std::cmp::Reverse;
use std::collections::BinaryHeap;
use std::sync::{Barrier, Condvar, Mutex};
use std::thread;
use std::time::{Duration, Instant};

const MESSAGE: &[u8; 16] = b"sixteen bytes ..";
const DEPTH: usize = 10;

struct Line {
    // The greatest priority first, and within a priority the message that was sent first.
    messages: BinaryHeap<(u32, Reverse<u64>, Vec<u8>)>,
    sent: u64,
    senders: usize,
    receivers: usize,
}

struct Queue {
    line: Mutex<Line>,
    has_room: Condvar,
    has_message: Condvar,
    most: usize,
    notifies_each: bool,
}

impl Queue {
    fn new(most: usize, notifies_each: bool) -> Queue {
        let messages = BinaryHeap::with_capacity(most);
        Queue {
            line: Mutex::new(Line {
                messages,
                sent: 0,
                senders: 0,
                receivers: 0,
            }),
            has_room: Condvar::new(),
            has_message: Condvar::new(),
            most,
            notifies_each,
        }
    }

    #[inline(never)]
    fn send(&self, message: &[u8], priority: u32) {
        let mut line = self.line.lock().unwrap();
        while line.messages.len() == self.most {
            line.senders += 1;
            line = self.has_room.wait(line).unwrap();
            line.senders -= 1;
        }
        let place = line.sent;
        line.sent += 1;
        line.messages
            .push((priority, Reverse(place), message.to_vec()));
        if self.notifies_each || line.receivers > 0 {
            self.has_message.notify_one();
        }
    }

    #[inline(never)]
    fn receive(&self, buffer: &mut [u8]) -> (usize, u32) {
        let mut line = self.line.lock().unwrap();
        let (priority, _, message) = loop {
            if let Some(message) = line.messages.pop() {
                break message;
            }
            line.receivers += 1;
            line = self.has_message.wait(line).unwrap();
            line.receivers -= 1;
        };
        if self.notifies_each || line.senders > 0 {
            self.has_room.notify_one();
        }
        drop(line);
        buffer[..message.len()].copy_from_slice(&message);
        (message.len(), priority)
    }
}

fn pair(queue: &Queue, rounds: u32) -> Duration {
    let mut buffer = [0; 16];
    let start = Instant::now();
    for _ in 0..rounds {
        queue.send(MESSAGE, 0);
        queue.receive(&mut buffer);
    }
    start.elapsed()
}

fn deep(queue: &Queue, depth: u32, rounds: u32) -> Duration {
    let mut buffer = [0; 16];
    let start = Instant::now();
    for round in 0..rounds {
        let mut random = round;
        for _ in 0..depth {
            random = random.wrapping_mul(1_664_525).wrapping_add(1_013_904_223);
            queue.send(MESSAGE, random >> 17);
        }
        for _ in 0..depth {
            queue.receive(&mut buffer);
        }
    }
    start.elapsed()
}

fn crowd(queue: &Queue, count: u32, rounds: u32) -> Duration {
    let barrier = Barrier::new(count as usize + 1);
    let start = thread::scope(|scope| {
        for member in 0..count {
            let barrier = &barrier;
            scope.spawn(move || {
                let mut buffer = [0; 16];
                barrier.wait();
                for _ in 0..rounds {
                    if member % 2 == 0 {
                        queue.send(MESSAGE, 0);
                    } else {
                        queue.receive(&mut buffer);
                    }
                }
            });
        }
        barrier.wait();
        Instant::now()
    });
    start.elapsed()
}

fn main() {
    let words: Vec<String> = std::env::args().skip(1).collect();
    let sizes: Vec<u32> = words[2..]
        .iter()
        .map(|word| word.parse().unwrap())
        .collect();
    let notifies_each = words[0] == "each";
    let (operations, time) = match (words[1].as_str(), sizes.as_slice()) {
        ("pair", &[n]) => (2 * n, pair(&Queue::new(DEPTH, notifies_each), n)),
        ("deep", &[d, n]) => (
            2 * d * n,
            deep(&Queue::new(d as usize, notifies_each), d, n),
        ),
        ("crowd", &[p, n]) => (p * n, crowd(&Queue::new(DEPTH, notifies_each), p, n)),
        _ => panic!("pair N, deep D N or crowd P N"),
    };
    println!(
        "{:.1} ns each",
        time.as_nanos() as f64 / f64::from(operations)
    );
}
