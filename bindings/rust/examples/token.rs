//! Two threads pass a token, and each has a condition: that it has the token. With the word `keep` the first thread
//! goes on as if it had the token once it has passed it on. The notes go to a checker in `main`.
//!
//! The compiler guarantees that no stamp is made up and that no token is received without its stamp: only
//! `Probe::stamp` makes a `Stamped<Token>`, and only `Probe::receive` opens it. It doesn't notice a token that is sent
//! without a stamp, over a channel of plain tokens, or order that comes from a lock. The checker sees neither.

use std::error::Error;
use std::sync::mpsc::{channel, Receiver, Sender};
use std::thread;
use wullaphi::{Checker, Note, Probe, Report, Stamped};

const WATCH: u64 = 1;
const PASSES: u32 = 5;

type Result<T> = std::result::Result<T, Box<dyn Error + Send + Sync>>;

struct Token {
    passes_left: u32,
}

struct Worker {
    probe: Probe,
    inbox: Receiver<Stamped<Token>>,
    outbox: Sender<Stamped<Token>>,
    notes: Sender<Note>,
    keeps: bool,
}

impl Worker {
    fn observe(&mut self, has_token: bool) -> Result<()> {
        if let Some(note) = self.probe.observe(has_token)? {
            self.notes.send(note)?;
        }
        Ok(())
    }

    fn pass_on(&mut self, token: Token) -> Result<()> {
        let passes_left = token.passes_left - 1;
        let other = 1 - self.probe.process();
        let message = self.probe.stamp(other, Token { passes_left })?;
        self.outbox.send(message).map_err(|_| "a worker is gone")?;
        self.observe(self.keeps)
    }

    /// Passes the token on until it has been passed on often enough. The first worker starts with it.
    fn work(mut self, first: Option<Token>) -> Result<()> {
        if let Some(token) = first {
            self.observe(true)?;
            self.pass_on(token)?;
        }
        while let Ok(message) = self.inbox.recv() {
            let token = self.probe.receive(message)?;
            self.observe(true)?;
            if token.passes_left == 0 {
                break;
            }
            self.pass_on(token)?;
        }
        let last = self.probe.close()?;
        Ok(self.notes.send(last)?)
    }
}

/// Takes all notes, and answers after how many messages of each thread both had the token, if they ever had.
fn check(notes: &Receiver<Note>) -> Result<Option<(u32, u32)>> {
    let mut checker = Checker::new(WATCH, 2)?;
    let mut closed = 0;
    while closed < 2 {
        let note = notes.recv()?;
        checker.take(&note)?;
        closed += u32::from(note.is_last());
    }
    match checker.report() {
        Report::Found(_) => Ok(Some((checker.cut(0)?, checker.cut(1)?))),
        _ => Ok(None),
    }
}

fn main() -> Result<()> {
    let keeps = std::env::args().nth(1).as_deref() == Some("keep");
    let (there, there_end) = channel();
    let (back, back_end) = channel();
    let (notes, notes_end) = channel();
    let worker = |process, inbox, outbox, keeps| -> Result<Worker> {
        let (probe, notes) = (Probe::new(WATCH, process, 2)?, notes.clone());
        Ok(Worker {
            probe,
            inbox,
            outbox,
            notes,
            keeps,
        })
    };
    let first = worker(0, back_end, there, keeps)?;
    let second = worker(1, there_end, back, false)?;
    drop(notes);
    let token = Token {
        passes_left: PASSES,
    };
    let threads = [
        thread::spawn(move || first.work(Some(token))),
        thread::spawn(move || second.work(None)),
    ];
    let found = check(&notes_end)?;
    for thread in threads {
        thread.join().map_err(|_| "a worker panicked")??;
    }
    match found {
        Some((first, second)) => println!(
            "both threads had the token, thread 0 after {first} of its messages, thread 1 after {second}"
        ),
        None => println!("the two threads never had the token at once"),
    }
    Ok(())
}
