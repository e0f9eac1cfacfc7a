//! A bank: two workers take jobs from queues, and a lock keeps transfers and audits apart. With the word
//! `hasty` an audit forgets the lock.

use std::sync::atomic::{AtomicI64, Ordering::Relaxed};
use wullaphi::sync::{mpsc, Mutex};
use wullaphi::{holding, thread, Watch};

enum Job {
    Transfer(usize, usize, i64),
    Audit,
}

#[derive(Default)]
struct Bank {
    books: Mutex<()>,
    balances: [AtomicI64; 3],
}

impl Bank {
    fn transfer(&self, from: usize, to: usize, amount: i64) {
        let _books = self.books.lock().unwrap();
        let _held = holding("transfer");
        self.balances[from].fetch_sub(amount, Relaxed);
        self.balances[to].fetch_add(amount, Relaxed);
    }

    fn audit(&self, is_hasty: bool) -> i64 {
        let _books = (!is_hasty).then(|| self.books.lock().unwrap());
        let _held = holding("audit");
        self.balances
            .iter()
            .map(|balance| balance.load(Relaxed))
            .sum()
    }
}

fn main() -> Result<(), Box<dyn std::error::Error>> {
    let is_hasty = std::env::args().nth(1).as_deref() == Some("hasty");
    let bank = Bank::default();
    let watch = Watch::new(&["ada", "ben"])?;
    let entered = watch.enter();
    thread::scope(|scope| -> std::io::Result<()> {
        for name in ["ada", "ben"] {
            let (jobs, inbox) = mpsc::channel();
            let bank = &bank;
            let work = move || {
                for job in inbox {
                    match job {
                        Job::Transfer(from, to, amount) => bank.transfer(from, to, amount),
                        Job::Audit => {
                            let sum = bank.audit(is_hasty);
                            assert!(is_hasty || sum == 0);
                        }
                    }
                }
            };
            thread::Builder::new()
                .name(name.into())
                .spawn_scoped(&scope, work)?;
            for amount in 1..5 {
                let job = if name == "ada" {
                    Job::Transfer(0, 1, amount)
                } else {
                    Job::Audit
                };
                jobs.send(job).expect("the worker waits for jobs");
            }
        }
        Ok(())
    })?;
    drop(entered);
    println!("{}", watch.report());
    Ok(())
}
