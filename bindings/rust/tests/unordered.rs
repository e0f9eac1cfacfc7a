//! What could have been is found: two threads that use one thing which doesn't keep them apart.

mod together;

use std::collections::BTreeMap;
use std::time::Duration;
use together::{two, Runs};
use wullaphi::sync::{mpsc, Barrier, Condvar, Mutex, Once, RwLock};
use wullaphi::{holding, thread, Watch, WatchError, WatchReport};

const RUNS: usize = 100;

fn all_found() -> Runs {
    Runs {
        found: RUNS,
        ..Runs::default()
    }
}

/// Ada has held before she sends, and ben holds behind his send: a channel doesn't order its senders.
#[test]
fn two_senders() {
    let found = Runs::of(RUNS, || {
        let (sender, receiver) = mpsc::channel();
        // Each has a sender of its own, since a watched lock about one would order them.
        let senders = std::sync::Mutex::new(sender);
        let own = || senders.lock().unwrap().clone();
        let report = two(
            (),
            |_| {
                drop(holding("before"));
                own().send(1).unwrap();
            },
            |_| {
                own().send(2).unwrap();
                drop(holding("behind"));
            },
        );
        assert_eq!(receiver.try_iter().count(), 2);
        report
    });
    assert_eq!(found, all_found());
}

/// The same in a channel with room for both.
#[test]
fn two_senders_with_room() {
    let found = Runs::of(RUNS, || {
        let (sender, receiver) = mpsc::sync_channel(2);
        let report = two(
            (),
            |_| {
                drop(holding("before"));
                sender.send(1).unwrap();
            },
            |_| {
                sender.send(2).unwrap();
                drop(holding("behind"));
            },
        );
        assert_eq!(receiver.try_iter().count(), 2);
        report
    });
    assert_eq!(found, all_found());
}

/// Both wait at one condition variable, and their conditions last over the waits.
#[test]
fn two_that_wait() {
    let found = Runs::of(RUNS, || {
        let waits = |(count, changed): &(Mutex<u32>, Condvar)| {
            let _held = holding("waits");
            let mut count = count.lock().unwrap();
            *count += 1;
            changed.notify_all();
            drop(changed.wait_while(count, |count| *count < 2).unwrap());
        };
        two((Mutex::new(0), Condvar::new()), waits, waits)
    });
    assert_eq!(found, all_found());
}

#[test]
fn two_under_different_locks() {
    let found = Runs::of(RUNS, || {
        two(
            (Mutex::new(()), Mutex::new(())),
            |locks| {
                let _lock = locks.0.lock().unwrap();
                let _held = holding("under one");
            },
            |locks| {
                let _lock = locks.1.lock().unwrap();
                let _held = holding("under the other");
            },
        )
    });
    assert_eq!(found, all_found());
}

#[test]
fn two_readers() {
    let found = Runs::of(RUNS, || {
        let reads = |lock: &RwLock<()>| {
            let _lock = lock.read().unwrap();
            let _held = holding("reads");
        };
        two(RwLock::new(()), reads, reads)
    });
    assert_eq!(found, all_found());
}

/// Both find that the call of a third has run.
#[test]
fn two_behind_one_call() {
    let found = Runs::of(RUNS, || {
        let once = Once::new();
        once.call_once(|| ());
        let asks = |once: &Once| {
            once.call_once(|| panic!("it has run"));
            let _held = holding("has it");
        };
        two(once, asks, asks)
    });
    assert_eq!(found, all_found());
}

#[test]
fn two_behind_one_barrier() {
    let found = Runs::of(RUNS, || {
        let passes = |barrier: &Barrier| {
            barrier.wait();
            let _held = holding("is through");
        };
        two(Barrier::new(2), passes, passes)
    });
    assert_eq!(found, all_found());
}

/// A condition lasts over locks and releases of its own process: both are busy at once by the clock, since an unwatched
/// barrier stands within.
#[test]
fn a_condition_lasts() {
    let found = Runs::of(RUNS, || {
        let busy = |(log, meet): &(Mutex<u32>, std::sync::Barrier)| {
            let _held = holding("busy");
            *log.lock().unwrap() += 1;
            meet.wait();
            *log.lock().unwrap() += 1;
        };
        two((Mutex::new(0), std::sync::Barrier::new(2)), busy, busy)
    });
    assert_eq!(found, all_found());
}

/// The start and the join order ada and ben, also through a thread that is no process.
#[test]
fn joined_before_the_start() {
    let ended = Runs::of(1_000, || {
        let watch = Watch::new(&["ada", "ben"]).unwrap();
        let entered = watch.enter();
        for name in ["ada", "ben"] {
            let run = || drop(holding("runs"));
            let thread = thread::Builder::new().name(name.into()).spawn(run).unwrap();
            thread.join().unwrap();
        }
        drop(entered);
        watch.report()
    });
    assert_eq!((ended.none, ended.found), (1_000, 0));
}

/// A lock that outlives its watch orders nothing in the next one.
#[test]
fn a_lock_of_an_earlier_watch() {
    static LOCK: Mutex<u32> = Mutex::new(0);
    let counts = |_: &()| {
        *LOCK.lock().unwrap() += 1;
        let _held = holding("beside the lock");
    };
    assert!(matches!(
        two((), counts, counts),
        WatchReport::Found(_) | WatchReport::Nothing
    ));
    let meet = std::sync::Barrier::new(2);
    let found = two(
        (),
        |_| {
            let _held = holding("busy");
            meet.wait();
        },
        |_| {
            drop(LOCK.lock().unwrap());
            let _held = holding("busy");
            meet.wait();
        },
    );
    assert!(matches!(found, WatchReport::Found(_)), "{found}");
}

#[test]
fn places_name_the_moment() {
    let busy = |_: &()| drop(holding("busy"));
    let report = two((), busy, busy);
    let line = line!() - 2;
    assert_eq!(
        report.to_string(),
        format!("found: ada at busy (unordered.rs:{line}), ben at busy (unordered.rs:{line})")
    );
}

/// What is outside the watch is told, and never `none`.
#[test]
fn who_is_no_process() {
    let report = two(
        (),
        |_| {
            let run = || drop(holding("strays"));
            thread::Builder::new()
                .name("eve".into())
                .spawn(run)
                .unwrap()
                .join()
                .unwrap();
        },
        |_| (),
    );
    let why = "eve held 1 times, but is no process of the watch";
    assert_eq!(report, WatchReport::Undecided(why.into()));
}

#[test]
fn who_never_began_or_has_not_ended() {
    let watch = Watch::new(&["ada", "ben"]).unwrap();
    assert_eq!(
        watch.report(),
        WatchReport::Undecided("ada, ben never began".into())
    );
    let ada = watch.process("ada").unwrap();
    assert_eq!(
        watch.report(),
        WatchReport::Undecided("ben never began; ada had not ended".into())
    );
    drop(ada);
    assert_eq!(
        watch.report(),
        WatchReport::Undecided("ben never began".into())
    );
    drop(watch.process("ben").unwrap());
    assert_eq!(watch.report(), WatchReport::Nothing);
}

#[test]
fn a_name_is_used_once() {
    let watch = Watch::new(&["ada"]).unwrap();
    let _entered = watch.enter();
    let start = || thread::Builder::new().name("ada".into()).spawn(|| ());
    start().unwrap().join().unwrap();
    let fault = start().unwrap_err();
    assert_eq!(fault.kind(), std::io::ErrorKind::AlreadyExists);
    assert_eq!(fault.to_string(), "ada is a process of the watch already");
    assert_eq!(
        watch.process("ada").unwrap_err(),
        WatchError::Begun("ada".into())
    );
    assert_eq!(
        watch.process("eve").unwrap_err(),
        WatchError::NoProcess("eve".into())
    );
}

#[test]
fn names_that_are_none() {
    let many: Vec<String> = (0..17).map(|number| number.to_string()).collect();
    let many: Vec<&str> = many.iter().map(String::as_str).collect();
    for names in [&[][..], &["ada", "ada"], &many] {
        assert_eq!(Watch::new(names).unwrap_err(), WatchError::Names);
    }
    assert_eq!(
        Watch::new_sets(&["ada"], &[["eve"]]).unwrap_err(),
        WatchError::Names
    );
    assert_eq!(Watch::new_pairs(&["ada"]).unwrap_err(), WatchError::Names);
    assert!(Watch::new(&many[..16]).is_ok());
}

/// A thread that panics ends its part, and its condition ends with it.
#[test]
fn a_panic_ends_a_condition() {
    let watch = Watch::new(&["ada", "ben"]).unwrap();
    let entered = watch.enter();
    let start = |name: &str| thread::Builder::new().name(name.into());
    let ada = start("ada").spawn(|| {
        let held = holding("panics");
        std::mem::forget(held);
        std::panic::resume_unwind(Box::new("on purpose"));
    });
    assert!(ada.unwrap().join().is_err());
    let ben = start("ben").spawn(|| drop(holding("comes later")));
    ben.unwrap().join().unwrap();
    drop(entered);
    assert_eq!(watch.report(), WatchReport::Nothing);
}

/// A guard that outlives its part ends no condition of another one.
#[test]
fn a_guard_that_outlives_its_part() {
    let (outer, inner) = (
        Watch::new(&["ada", "ben"]).unwrap(),
        Watch::new(&["ada"]).unwrap(),
    );
    let ada = outer.process("ada").unwrap();
    let held = holding("all the time");
    let within = inner.process("ada").unwrap();
    let left_over = holding("within");
    drop(within);
    drop(left_over);
    let lock = Mutex::new(());
    drop(lock.lock().unwrap()); // an event, at which the outer condition goes on
    let entered = outer.enter();
    let thread = thread::Builder::new().name("ben".into());
    let ben = thread.spawn(|| drop(holding("later"))).unwrap();
    ben.join().unwrap();
    drop(entered);
    drop(held);
    drop(ada);
    assert!(matches!(outer.report(), WatchReport::Found(_)));
}

/// Each pair has a report of its own.
#[test]
fn pairs() {
    let watch = Watch::new_pairs(&["ada", "ben", "cleo"]).unwrap();
    let entered = watch.enter();
    let lock = Mutex::new(());
    thread::scope(|scope| {
        for name in ["ada", "ben"] {
            let locked = || {
                let _lock = lock.lock().unwrap();
                let _held = holding("locked");
            };
            let thread = thread::Builder::new().name(name.into());
            thread.spawn_scoped(&scope, locked).unwrap();
        }
        let thread = thread::Builder::new().name("cleo".into());
        let free = || drop(holding("free"));
        thread.spawn_scoped(&scope, free).unwrap();
    });
    drop(entered);
    let reports: BTreeMap<String, bool> = watch
        .reports()
        .into_iter()
        .map(|(names, report)| (names.join(" "), report != WatchReport::Nothing))
        .collect();
    let wanted = [("ada ben", false), ("ada cleo", true), ("ben cleo", true)];
    assert_eq!(
        reports,
        wanted
            .map(|(names, found)| (names.to_string(), found))
            .into()
    );
}

/// The watched things do what those of the standard library do.
#[test]
fn without_a_watch() {
    let lock = Mutex::new(1);
    *lock.lock().unwrap() += 1;
    assert_eq!(
        format!("{lock:?}"),
        "Mutex { data: 2, poisoned: false, .. }"
    );
    assert_eq!(lock.into_inner().unwrap(), 2);
    let (sender, receiver) = mpsc::sync_channel(1);
    assert!(sender.try_send(1).is_ok());
    assert_eq!(sender.try_send(2), Err(mpsc::TrySendError::Full(2)));
    assert_eq!(receiver.recv_timeout(Duration::from_millis(1)), Ok(1));
    assert_eq!(
        receiver.recv_timeout(Duration::from_millis(1)),
        Err(mpsc::RecvTimeoutError::Timeout)
    );
    assert_eq!(receiver.try_recv(), Err(mpsc::TryRecvError::Empty));
    drop(sender);
    assert_eq!(receiver.recv(), Err(mpsc::RecvError));
    let (sender, receiver) = mpsc::sync_channel(0);
    assert_eq!(sender.try_send(1), Err(mpsc::TrySendError::Full(1)));
    drop(receiver);
    assert_eq!(sender.send(1), Err(mpsc::SendError(1)));
    assert!(Barrier::new(1).wait().is_leader());
    assert_eq!(thread::spawn(|| 5).join().unwrap(), 5);
}

/// A send with room for none gives its item back where the receiver goes.
#[test]
fn a_receiver_that_goes() {
    let (sender, receiver) = mpsc::sync_channel(0);
    let thread = std::thread::spawn(move || sender.send(7));
    std::thread::sleep(Duration::from_millis(20));
    drop(receiver);
    assert_eq!(thread.join().unwrap(), Err(mpsc::SendError(7)));
}

/// A poisoned lock is taken all the same.
#[test]
fn a_poisoned_lock() {
    let lock = std::sync::Arc::new(Mutex::new(1));
    let other = std::sync::Arc::clone(&lock);
    let thread = thread::spawn(move || {
        let _lock = other.lock().unwrap();
        std::panic::resume_unwind(Box::new("on purpose"));
    });
    assert!(thread.join().is_err());
    assert!(lock.is_poisoned());
    assert_eq!(*lock.lock().unwrap_err().into_inner(), 1);
}
