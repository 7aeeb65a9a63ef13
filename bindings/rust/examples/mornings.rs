//! A simulation that saves its state at midnight and tries three mornings from there.

use std::time::Duration;
use yakyrombe::{Clock, Error, Journal, OpenOptions, System, VirtualClock};

const JOBS: OpenOptions = OpenOptions::read_write().create().limits(64, 16);
const HOUR: Duration = Duration::from_secs(3600);

/// A day: a job arrives every hour, and the workshop does one every two hours.
fn day() -> Result<Journal, Error> {
    let clock = VirtualClock::new();
    let (_, [office, workshop]) =
        System::builder().journal(true).clock(clock.clone()).build_array()?;
    let (orders, work) = (office.open("/jobs", JOBS)?, workshop.open("/jobs", JOBS)?);
    for hour in 1..=24 {
        clock.advance_to(hour * HOUR);
        orders.send(format!("job {hour}").as_bytes(), u32::from(hour % 5 == 0))?;
        if hour % 2 == 0 {
            work.receive_vec()?;
        }
    }
    Ok(office.journal()?.compacted()?)
}

/// The morning after, on which each job takes `job`; returns how many jobs are left at noon.
fn morning(midnight: &Journal, job: Duration) -> Result<usize, Error> {
    let clock = VirtualClock::new();
    clock.advance_to(24 * HOUR);
    let (_, processes) = System::builder().processes(2).clock(clock.clone()).resume(midnight)?;
    let work = processes[1].resumed(0)?;
    while clock.now() + job <= 36 * HOUR && work.attr()?.curmsgs > 0 {
        work.receive_vec()?;
        clock.advance(job);
    }
    Ok(work.attr()?.curmsgs)
}

fn main() -> Result<(), Error> {
    let midnight = day()?;
    for minutes in [45, 90, 180] {
        let left = morning(&midnight, Duration::from_secs(60 * minutes))?;
        println!("a job in {minutes} minutes: {left} are left at noon");
    }
    Ok(())
}
