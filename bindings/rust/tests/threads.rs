//! Probes and checkers that threads use and hand on.

use std::sync::mpsc::channel;
use std::sync::{Arc, Mutex};
use std::thread;
use wullaphi::{Checker, Note, Probe, Refusal, Refused, Report, Stamp, Stamped};

const ROUNDS: u64 = 20_000;

fn is_shared<T: Send + Sync>() {}

#[test]
fn all_types_go_between_threads() {
    is_shared::<Probe>();
    is_shared::<Checker>();
    is_shared::<Note>();
    is_shared::<Stamp>();
    is_shared::<Stamped<String>>();
    is_shared::<Refused<Stamped<String>>>();
}

/// Each thread brings its notes to the one checker, under a lock.
#[test]
fn a_checker_under_a_lock() {
    let checker = Arc::new(Mutex::new(Checker::new(3, 2).unwrap()));
    let threads: Vec<_> = (0..2)
        .map(|process| {
            let checker = Arc::clone(&checker);
            thread::spawn(move || -> Result<(), Refusal> {
                let mut probe = Probe::new(3, process, 2)?;
                for _ in 0..ROUNDS {
                    let note = probe.observe(true)?.expect("a snapshot");
                    checker.lock().unwrap().take(&note)?;
                    probe.stamp_for(1 - process)?;
                }
                checker.lock().unwrap().take(&probe.close()?)
            })
        })
        .collect();
    for thread in threads {
        thread.join().unwrap().unwrap();
    }
    let mut checker = checker.lock().unwrap();
    assert_eq!(
        (checker.taken(0), checker.taken(1)),
        (Ok(ROUNDS), Ok(ROUNDS))
    );
    assert_eq!(checker.report(), Report::Found(vec![Some(0), Some(0)]));
}

/// A checker is made in one thread, goes on in another, and ends in a third.
#[test]
fn a_checker_that_is_handed_on() {
    let (there, there_end) = channel::<(Checker, Probe)>();
    let (back, back_end) = channel();
    let second = thread::spawn(move || {
        let (mut checker, mut probe) = there_end.recv().unwrap();
        checker
            .take(&probe.observe(true).unwrap().unwrap())
            .unwrap();
        back.send(checker).unwrap();
    });
    let mut checker = Checker::new(3, 2).unwrap();
    let mut ada = Probe::new(3, 0, 2).unwrap();
    checker.take(&ada.observe(true).unwrap().unwrap()).unwrap();
    there.send((checker, Probe::new(3, 1, 2).unwrap())).unwrap();
    second.join().unwrap();
    let third = thread::spawn(move || back_end.recv().unwrap().report());
    assert_eq!(third.join().unwrap(), Report::Found(vec![Some(0), Some(0)]));
}
