//! A pool of workers, and a control message that overtakes the jobs that are still in the queue.

use std::thread;
use std::time::Duration;
use yakyrombe::{Error, OpenOptions, Process, System};

const QUEUE: OpenOptions = OpenOptions::read_write().create().limits(64, 16);
const JOB: u32 = 1;
const CONTROL: u32 = 100;
const WORKERS: usize = 4;
const JOBS: usize = 40;
/// How long a job takes.
const WORK: Duration = Duration::from_millis(2);

fn main() -> Result<(), Error> {
    let (_, mut workers) = System::builder().processes(1 + WORKERS).build()?;
    let control = workers.remove(0);
    let pool = control.open("/pool", QUEUE)?;
    let results = control.open("/results", QUEUE)?;
    let threads: Vec<_> = workers
        .into_iter()
        .map(|process| (process.number(), thread::spawn(move || work(&process))))
        .collect();

    for job in 0..JOBS {
        pool.send(job.to_string().as_bytes(), JOB)?;
    }
    for _ in 0..JOBS / 2 {
        results.receive_vec()?;
    }
    // These overtake the jobs that nobody has begun.
    for _ in 0..WORKERS {
        pool.send(b"stop", CONTROL)?;
    }

    let mut all = 0;
    for (worker, thread) in threads {
        let done = thread.join().expect("no worker panics")?;
        println!("process {worker}: {done} jobs");
        all += done;
    }
    println!("{all} of {JOBS} jobs are done, {} are left", pool.try_iter().count());
    Ok(())
}

/// Does jobs until a control message comes.
fn work(process: &Process) -> Result<usize, Error> {
    let jobs = process.open("/pool", QUEUE)?;
    let results = process.open("/results", QUEUE)?;
    let mut done = 0;
    for job in &jobs {
        let job = job?;
        if job.priority == CONTROL {
            break;
        }
        thread::sleep(WORK);
        results.send(&job, JOB)?;
        done += 1;
    }
    Ok(done)
}
