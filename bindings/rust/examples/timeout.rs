//! A receive that gives up after a while, and one that does not wait.

use std::time::Duration;
use yakyrombe::{Error, OpenOptions, System};

fn main() -> Result<(), Error> {
    let (_, [process]) = System::builder().bounded(100, 1000).build_array()?;
    let queue = process.open("/answers", OpenOptions::read_write().create().limits(1, 32))?;
    let mut buf = [0; 32];
    match queue.receive_timeout(&mut buf, Duration::from_millis(20)) {
        Err(Error::TimedOut) => println!("nothing came in 20 milliseconds"),
        other => println!("{other:?}"),
    }
    queue.send(b"here", 0)?;
    println!("a second message: {:?}", queue.try_send(b"too much", 0));
    println!("the first: {:?}", queue.try_receive(&mut buf));
    println!("none: {:?}", queue.try_receive(&mut buf));
    Ok(())
}
