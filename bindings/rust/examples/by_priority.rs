//! Work by priority: one process hands out orders, three carry them out, the most urgent first.

use std::thread;
use yakyrombe::{Error, OpenOptions, Process, System};

const ORDERS: OpenOptions = OpenOptions::read_write().create().limits(16, 64);
const WORKERS: usize = 3;

fn main() -> Result<(), Error> {
    let (_, mut processes) = System::builder().processes(1 + WORKERS).journal(true).build()?;
    let first = processes.remove(0);
    let orders = first.open("/orders", ORDERS)?;
    orders.send(b"sweep the floor", 1)?;
    orders.send(b"put out the fire", 9)?;
    orders.send(b"water the plants", 4)?;
    // An empty order for each worker: they are received last.
    for _ in 0..WORKERS {
        orders.send(b"", 0)?;
    }

    let done = thread::scope(|scope| {
        let workers: Vec<_> =
            processes.into_iter().map(|process| scope.spawn(move || work(&process))).collect();
        workers
            .into_iter()
            .map(|worker| worker.join().expect("no worker panics"))
            .sum::<Result<usize, Error>>()
    })?;
    println!("{done} orders carried out, in this order:");
    let journal = first.journal()?;
    let lines: Vec<&str> = journal.lines().collect();
    // `got 2` is the reply of the receive that takes the message of entry 2.
    for place in lines
        .iter()
        .filter_map(|line| line.split_once("-> got ")?.1.parse::<usize>().ok())
        .take(done)
    {
        println!("{}", lines[place]);
    }
    Ok(())
}

fn work(process: &Process) -> Result<usize, Error> {
    let orders = process.open("/orders", ORDERS)?;
    let mut buf = [0; 64];
    let mut done = 0;
    while orders.receive(&mut buf)?.len > 0 {
        done += 1;
    }
    Ok(done)
}
