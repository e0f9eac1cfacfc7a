//! Two threads that are ordered by one thing, in 1,000 runs: over the watched thing they never hold at once, and over the
//! standard library's they are found, since no stamp goes along with it.

mod together;

use together::{two, Runs};
use wullaphi::{holding, thread};

const RUNS: usize = 1_000;

/// Tries the same over `wullaphi::sync` and over `std::sync`.
macro_rules! kinds {
    ($($name:ident: $ada:expr, $ben:expr, $make:expr;)*) => {
        $(
            #[test]
            fn $name() {
                let watched = {
                    #[allow(unused_imports)]
                    use wullaphi::sync::{self, *};
                    Runs::of(RUNS, || two($make, $ada, $ben))
                };
                assert_eq!(watched, Runs { none: RUNS, ..Runs::default() });
                let plain = {
                    #[allow(unused_imports)]
                    use std::sync::{self, *};
                    Runs::of(RUNS / 10, || two($make, $ada, $ben))
                };
                assert_eq!(plain, Runs { found: RUNS / 10, ..Runs::default() });
            }
        )*
    };
}

fn held() {
    let _held = holding("held");
}

kinds! {
    a_mutex:
        |lock: &Mutex<()>| { let _lock = lock.lock().unwrap(); held(); },
        |lock: &Mutex<()>| { let _lock = lock.lock().unwrap(); held(); },
        Mutex::new(());
    a_mutex_that_is_tried:
        |lock: &Mutex<()>| {
            while lock.try_lock().map(|_lock| held()).is_err() {
                thread::yield_now();
            }
        },
        |lock: &Mutex<()>| { let _lock = lock.lock().unwrap(); held(); },
        Mutex::new(());
    a_writer_and_a_reader:
        |lock: &RwLock<()>| { let _lock = lock.write().unwrap(); held(); },
        |lock: &RwLock<()>| { let _lock = lock.read().unwrap(); held(); },
        RwLock::new(());
    two_writers:
        |lock: &RwLock<()>| { let _lock = lock.write().unwrap(); held(); },
        |lock: &RwLock<()>| { let _lock = lock.write().unwrap(); held(); },
        RwLock::new(());
    a_condition_variable:
        |(turn, changed): &(Mutex<bool>, Condvar)| {
            held();
            *turn.lock().unwrap() = true;
            changed.notify_one();
        },
        |(turn, changed): &(Mutex<bool>, Condvar)| {
            let turn = turn.lock().unwrap();
            drop(changed.wait_while(turn, |turn| !*turn).unwrap());
            held();
        },
        (Mutex::new(false), Condvar::new());
    a_condition_variable_with_a_time:
        |(turn, changed): &(Mutex<bool>, Condvar)| {
            held();
            *turn.lock().unwrap() = true;
            changed.notify_one();
        },
        |(turn, changed): &(Mutex<bool>, Condvar)| {
            let most = std::time::Duration::from_secs(60);
            let turn = turn.lock().unwrap();
            drop(changed.wait_timeout_while(turn, most, |turn| !*turn).unwrap());
            held();
        },
        (Mutex::new(false), Condvar::new());
    a_wait_lets_go:
        |(turn, changed): &(Mutex<bool>, Condvar)| {
            let mut turn = turn.lock().unwrap();
            held();
            while !*turn {
                turn = changed.wait(turn).unwrap();
            }
        },
        |(turn, changed): &(Mutex<bool>, Condvar)| {
            let mut turn = turn.lock().unwrap();
            held();
            *turn = true;
            changed.notify_one();
        },
        (Mutex::new(false), Condvar::new());
    a_once:
        |once: &Once| { held(); once.call_once(|| ()); },
        |once: &Once| {
            while !once.is_completed() {
                thread::yield_now();
            }
            held();
        },
        Once::new();
    a_barrier:
        |barrier: &Barrier| { held(); barrier.wait(); },
        |barrier: &Barrier| { barrier.wait(); held(); },
        Barrier::new(2);
    a_channel:
        |(sender, _): &(Mutex<mpsc::Sender<()>>, Mutex<mpsc::Receiver<()>>)| {
            held();
            let sender = sender.try_lock().unwrap().clone();
            sender.send(()).unwrap();
        },
        |(_, receiver): &(Mutex<mpsc::Sender<()>>, Mutex<mpsc::Receiver<()>>)| {
            receiver.try_lock().unwrap().recv().unwrap();
            held();
        },
        { let (sender, receiver) = mpsc::channel(); (Mutex::new(sender), Mutex::new(receiver)) };
    a_channel_with_room_for_one:
        |(sender, _): &(mpsc::SyncSender<()>, Mutex<mpsc::Receiver<()>>)| {
            sender.send(()).unwrap();
            sender.send(()).unwrap();
            held();
        },
        |(_, receiver): &(mpsc::SyncSender<()>, Mutex<mpsc::Receiver<()>>)| {
            held();
            let receiver = receiver.try_lock().unwrap();
            receiver.recv().unwrap();
            receiver.recv().unwrap();
        },
        { let (sender, receiver) = mpsc::sync_channel(1); (sender, Mutex::new(receiver)) };
    a_channel_with_room_for_none:
        |(sender, _): &(mpsc::SyncSender<()>, Mutex<mpsc::Receiver<()>>)| {
            sender.send(()).unwrap();
            held();
        },
        |(_, receiver): &(mpsc::SyncSender<()>, Mutex<mpsc::Receiver<()>>)| {
            held();
            receiver.try_lock().unwrap().recv().unwrap();
        },
        { let (sender, receiver) = mpsc::sync_channel(0); (sender, Mutex::new(receiver)) };
}
