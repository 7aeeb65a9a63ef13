//! Async tasks in one thread, with an executor over `std`, pass numbers through a short queue.

use std::future::Future;
use std::sync::{atomic::AtomicBool, atomic::Ordering::SeqCst, Arc};
use std::task::{Context, Wake};
use std::thread::{self, Thread};
use yakyrombe::{Error, OpenOptions, Process, System};

type Task = std::pin::Pin<Box<dyn Future<Output = Result<(), Error>>>>;

/// Whether a task should be polled, and the thread that polls it.
struct Due(AtomicBool, Thread);

impl Wake for Due {
    fn wake(self: Arc<Self>) {
        self.0.store(true, SeqCst);
        self.1.unpark();
    }
}

/// Runs the tasks until all of them are done, or one fails.
fn run(tasks: Vec<Task>) -> Result<(), Error> {
    let due = || Arc::new(Due(AtomicBool::new(true), thread::current()));
    let mut tasks: Vec<_> = tasks.into_iter().map(|task| (task, due())).collect();
    while !tasks.is_empty() {
        let Some(place) = tasks.iter().position(|(_, due)| due.0.swap(false, SeqCst)) else {
            thread::park();
            continue;
        };
        let waker = tasks[place].1.clone().into();
        if tasks[place].0.as_mut().poll(&mut Context::from_waker(&waker))?.is_ready() {
            drop(tasks.swap_remove(place));
        }
    }
    Ok(())
}

async fn send_all(process: Process, options: OpenOptions) -> Result<(), Error> {
    let mut queue = process.open("/numbers", options)?;
    for number in 1_u64..=1000 {
        queue.send_async(&number.to_le_bytes(), 0).await?;
    }
    Ok(())
}

async fn sum(process: Process, options: OpenOptions) -> Result<(), Error> {
    let (mut queue, mut buf, mut sum) = (process.open("/numbers", options)?, [0; 8], 0);
    for _ in 0..1000 {
        queue.receive_async(&mut buf).await?;
        sum += u64::from_le_bytes(buf);
    }
    println!("the sum is {sum}");
    Ok(())
}

fn main() -> Result<(), Error> {
    let (_, [first, second]) = System::builder().build_array()?;
    let options = OpenOptions::read_write().create().limits(1, 8);
    run(vec![Box::pin(sum(second, options)), Box::pin(send_all(first, options))])
}
