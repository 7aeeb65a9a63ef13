//! The cost of an operation from Rust: `pair N` and `crowd P N`, as in
//! `mqbench`. With `unstored` before them, no journal is stored.

use std::env;
use std::process::exit;
use std::sync::Barrier;
use std::thread;
use std::time::Instant;
use yakyrombe::{Error, OpenOptions, Process, System};

const MESSAGE: &[u8; 16] = b"sixteen bytes ..";
const QUEUE: OpenOptions = OpenOptions::read_write().create().limits(10, 16);

/// Makes a number of processes, with a stored journal or without.
type Make = fn(usize) -> Result<Vec<Process>, Error>;

fn stored(count: usize) -> Result<Vec<Process>, Error> {
    Ok(System::builder().processes(count).journal(true).build()?.1)
}

fn unstored(count: usize) -> Result<Vec<Process>, Error> {
    Ok(System::builder().processes(count).build()?.1)
}

fn main() -> Result<(), Error> {
    let words: Vec<String> = env::args().skip(1).collect();
    let words: Vec<&str> = words.iter().map(String::as_str).collect();
    let (make, workload): (Make, _) = match words.split_first() {
        Some((&"unstored", workload)) => (unstored, workload),
        _ => (stored, &words[..]),
    };
    let number = |word: &str| word.parse::<u32>().ok().filter(|&number| number > 0);
    let nanoseconds = match *workload {
        ["pair", rounds] => number(rounds).map(|rounds| pair(make, rounds)),
        ["crowd", members, rounds] => number(members)
            .zip(number(rounds))
            .map(|(members, rounds)| crowd(make, members, rounds)),
        _ => None,
    };
    let Some(nanoseconds) = nanoseconds else {
        eprintln!("pair N or crowd P N, or unstored and either");
        exit(2);
    };
    println!("{:.1} ns each", nanoseconds?);
    Ok(())
}

fn pair(make: Make, rounds: u32) -> Result<f64, Error> {
    let process = make(1)?.remove(0);
    let queue = process.open("/q", QUEUE)?;
    let start = Instant::now();
    for _ in 0..rounds {
        queue.send(MESSAGE, 0)?;
        queue.receive(&mut [0; 16])?;
    }
    Ok(start.elapsed().as_secs_f64() * 1e9 / 2.0 / f64::from(rounds))
}

fn crowd(make: Make, members: u32, rounds: u32) -> Result<f64, Error> {
    let processes = make(members as usize)?;
    let barrier = Barrier::new(members as usize + 1);
    let mut start = Instant::now();
    thread::scope(|scope| {
        let barrier = &barrier;
        let members: Vec<_> = processes
            .into_iter()
            .map(|process| scope.spawn(move || take_part(&process, rounds, barrier)))
            .collect();
        barrier.wait();
        start = Instant::now();
        members.into_iter().try_for_each(|member| member.join().expect("no member panics"))
    })?;
    Ok(start.elapsed().as_secs_f64() * 1e9 / f64::from(members) / f64::from(rounds))
}

// Those with even numbers receive, the others send.
fn take_part(process: &Process, rounds: u32, barrier: &Barrier) -> Result<(), Error> {
    let queue = process.open("/q", QUEUE)?;
    barrier.wait();
    for _ in 0..rounds {
        if process.number() % 2 == 0 {
            queue.receive(&mut [0; 16])?;
        } else {
            queue.send(MESSAGE, 0)?;
        }
    }
    Ok(())
}
