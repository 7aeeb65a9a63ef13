//! The workload `pair` of mqbench over a bounded channel of std.
use std::sync::mpsc::sync_channel;
use std::time::Instant;

const MESSAGE: [u8; 16] = *b"sixteen bytes ..";
const DEPTH: usize = 10;

fn main() {
    let words: Vec<String> = std::env::args().skip(1).collect();
    let rounds = match words.iter().map(String::as_str).collect::<Vec<_>>()[..] {
        ["pair", rounds] => rounds.parse().unwrap_or(0),
        _ => 0,
    };
    if rounds == 0 {
        eprintln!("pair N: a channel has no priorities, and one receiver");
        std::process::exit(2);
    }
    let (sender, receiver) = sync_channel(DEPTH);
    let start = Instant::now();
    for _ in 0..rounds {
        sender.send((0u32, MESSAGE.to_vec())).unwrap();
        std::hint::black_box(receiver.recv().unwrap());
    }
    println!("{:.1} ns each", start.elapsed().as_nanos() as f64 / (2.0 * rounds as f64));
}
