//! A transfer, and an audit that forgets the lock. The first run finds that they could have been at once. In the second
//! one each waits for the other, at most 10 seconds: that makes it happen.

use std::time::Duration;
use wullaphi::sync::Mutex;
use wullaphi::{holding, thread, Meeting, Watch, WatchReport};

const NAMES: [&str; 2] = ["ada", "ben"];

fn transfer(books: &Mutex<i64>) {
    let mut balance = books.lock().unwrap();
    let _held = holding("transfer");
    *balance -= 5;
}

fn audit() {
    let _held = holding("audit");
}

fn run(watch: &Watch) -> std::io::Result<()> {
    let books = Mutex::new(0);
    let _entered = watch.enter();
    thread::scope(|scope| -> std::io::Result<()> {
        let start = |name: &str| thread::Builder::new().name(name.into());
        start("ada").spawn_scoped(&scope, || transfer(&books))?;
        start("ben").spawn_scoped(&scope, audit)?;
        Ok(())
    })
}

fn main() -> Result<(), Box<dyn std::error::Error>> {
    let first = Watch::new(&NAMES)?;
    run(&first)?;
    let report = first.report();
    println!("{report}");
    if let WatchReport::Found(moment) = report {
        let meeting = Meeting::at_places(&moment, Duration::from_secs(10))?;
        let second = Watch::new(&NAMES)?;
        second.meet(&meeting)?;
        run(&second)?;
        println!("{}", meeting.account());
    }
    Ok(())
}
