//! A simulation in virtual time, in one thread: a sensor, a control and a logger run every 10, 20
//! and 50 milliseconds.

use std::time::Duration;
use yakyrombe::{Clock, Deadline, Error, OpenOptions, Process, Queue, System, VirtualClock};

const QUEUE: OpenOptions = OpenOptions::read_write().create().limits(64, 32);
const END: Duration = Duration::from_millis(100);

/// A periodic action.
struct Periodic {
    period: Duration,
    next: Duration,
    act: Box<dyn FnMut(Duration) -> Result<(), Error>>,
}

fn every(millis: u64, act: impl FnMut(Duration) -> Result<(), Error> + 'static) -> Periodic {
    let period = Duration::from_millis(millis);
    Periodic { period, next: period, act: Box::new(act) }
}

/// Every 10 milliseconds: sends a growing value.
fn sensor(values: Queue<Process>) -> Periodic {
    let mut value = 0_u32;
    every(10, move |_| {
        value += 7;
        values.send(value.to_string().as_bytes(), 0)
    })
}

/// Every 20 milliseconds: reports the mean of the values since the last report.
fn control(values: Queue<Process>, reports: Queue<Process>) -> Periodic {
    every(20, move |_| {
        let (mut sum, mut count) = (0.0, 0.0);
        for value in values.try_iter() {
            sum += String::from_utf8_lossy(&value?).parse().unwrap_or(0.0);
            count += 1.0;
        }
        let mean: f64 = sum / count;
        reports.send(format!("mean {mean}").as_bytes(), u32::from(mean > 50.0))
    })
}

/// Every 50 milliseconds: prints the reports, urgent ones first.
fn logger(reports: Queue<Process>) -> Periodic {
    every(50, move |now| {
        for report in reports.try_iter() {
            let report = report?;
            println!(
                "{} ms, priority {}: {}",
                now.as_millis(),
                report.priority,
                String::from_utf8_lossy(&report)
            );
        }
        Ok(())
    })
}

fn main() -> Result<(), Error> {
    let clock = VirtualClock::new();
    let (_, [one, two, three, four, five]) =
        System::builder().clock(clock.clone()).build_array()?;
    let open = |process, name| Queue::open(process, name, QUEUE).map_err(Error::from);
    let mut tasks = [
        sensor(open(one, "/values")?),
        control(open(two, "/values")?, open(three, "/reports")?),
        logger(open(four, "/reports")?),
    ];
    // Nobody sends a stop: waiting for it advances the clock to the next event.
    let stop = five.open("/stop", QUEUE)?;
    loop {
        let next = tasks.iter().map(|task| task.next).min().unwrap_or(END);
        if next > END {
            break;
        }
        assert_eq!(
            stop.receive_deadline(&mut [0; 32], Deadline::Moment(next)),
            Err(Error::TimedOut)
        );
        for task in tasks.iter_mut().filter(|task| task.next == clock.now()) {
            (task.act)(task.next)?;
            task.next += task.period;
        }
    }
    println!("ended at {} ms", clock.now().as_millis());
    Ok(())
}
