//! What a watched lock and a watched channel cost beside those of the standard library, turn about: the median of many
//! rounds. `cargo bench` runs it.

use std::time::Instant;
use wullaphi::{holding, Watch};

const ROUNDS: usize = 51;
const CALLS: u32 = 20_000;

/// The nanoseconds of a call.
fn cost(mut call: impl FnMut()) -> f64 {
    let begin = Instant::now();
    for _ in 0..CALLS {
        call();
    }
    begin.elapsed().as_secs_f64() * 1e9 / f64::from(CALLS)
}

fn median(mut times: Vec<f64>) -> f64 {
    times.sort_by(f64::total_cmp);
    times[times.len() / 2]
}

/// Prints the cost of two calls, and what the first costs more than the other.
fn compare(what: &str, mut watched: impl FnMut(), mut plain: impl FnMut()) {
    let (mut first, mut second, mut more) = (Vec::new(), Vec::new(), Vec::new());
    for _ in 0..ROUNDS {
        let (one, other) = (cost(&mut watched), cost(&mut plain));
        first.push(one);
        second.push(other);
        more.push(one - other);
    }
    let (first, second, more) = (median(first), median(second), median(more));
    println!("{what}: {first:.0} ns, plain {second:.0} ns, {more:.0} ns more");
}

fn compare_all(who: &str) {
    let (watched, plain) = (
        wullaphi::sync::Mutex::new(0u64),
        std::sync::Mutex::new(0u64),
    );
    compare(
        &format!("lock and release, {who}"),
        || *watched.lock().unwrap() += 1,
        || *plain.lock().unwrap() += 1,
    );
    let (sender, receiver) = wullaphi::sync::mpsc::channel();
    let (plain_sender, plain_receiver) = std::sync::mpsc::channel();
    compare(
        &format!("send and receive, {who}"),
        || {
            sender.send(1u64).unwrap();
            assert_eq!(receiver.recv(), Ok(1));
        },
        || {
            plain_sender.send(1u64).unwrap();
            assert_eq!(plain_receiver.recv(), Ok(1));
        },
    );
}

fn main() {
    compare_all("in no watch");
    let watch = Watch::new(&["ada", "ben"]).unwrap();
    let entered = watch.enter();
    compare_all("in a thread that is no process");
    drop(entered);
    let process = watch.process("ada").unwrap();
    compare_all("in a process");
    let _held = holding("all the time");
    compare_all("in a process that holds");
    drop(process);
}
