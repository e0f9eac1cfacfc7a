//! Random programs over all watched things, whose threads really run: two that held at once by the clock are never
//! told as `none`.

mod common;

use common::Random;
use std::sync::atomic::{AtomicBool, AtomicU32, Ordering};
use wullaphi::sync::{mpsc, Barrier, Condvar, Mutex, Once, RwLock};
use wullaphi::{holding, thread, Watch, WatchReport};

const PROGRAMS: u64 = 1_000;
const NAMES: [&str; 3] = ["ada", "ben", "cleo"];
const PAIRS: [(usize, usize); 3] = [(0, 1), (0, 2), (1, 2)];

/// What the threads of a program share.
struct Shared {
    locks: [Mutex<u32>; 2],
    turn: (Mutex<u32>, Condvar),
    read: RwLock<u32>,
    once: Once,
    barrier: Barrier,
    bounded: mpsc::SyncSender<usize>,
    /// Unwatched, so that they order nothing.
    received: std::sync::Mutex<(mpsc::Receiver<usize>, mpsc::Receiver<usize>)>,
    sender: std::sync::Mutex<mpsc::Sender<usize>>,
    holds: [AtomicBool; 3],
    /// For each pair, whether both held at once by the clock.
    together: [AtomicU32; 3],
}

impl Shared {
    fn new() -> Shared {
        let (sender, items) = mpsc::channel();
        let (bounded, others) = mpsc::sync_channel(2);
        Shared {
            locks: Default::default(),
            turn: Default::default(),
            read: RwLock::new(0),
            once: Once::new(),
            barrier: Barrier::new(3),
            bounded,
            received: std::sync::Mutex::new((items, others)),
            sender: std::sync::Mutex::new(sender),
            holds: Default::default(),
            together: Default::default(),
        }
    }

    /// The thread does so many steps, of which some hold, and each may stand within another.
    fn play(&self, own: usize, random: &mut Random, steps: usize, depth: usize) {
        for _ in 0..steps {
            match random.below(if depth == 0 { 10 } else { 8 }) {
                0 | 1 => *self.locks[random.below(2)].lock().unwrap() += 1,
                2 => *self.read.write().unwrap() += 1,
                3 => assert!(*self.read.read().unwrap() < u32::MAX),
                4 => self.once.call_once(|| ()),
                5 => self.wait_or_notify(random),
                6 => self.send(own, random),
                7 => self.receive(random),
                _ => self.hold(own, random),
            }
        }
    }

    fn hold(&self, own: usize, random: &mut Random) {
        let lock = &self.locks[random.below(2)];
        let locked = (random.below(3) == 0).then(|| lock.lock().unwrap());
        let held = holding("holds");
        self.holds[own].store(true, Ordering::SeqCst);
        if locked.is_none() {
            let steps = random.below(3);
            self.play(own, random, steps, 1);
        }
        for (pair, (first, second)) in PAIRS.iter().enumerate() {
            let other = if *first == own { *second } else { *first };
            if (*first == own || *second == own) && self.holds[other].load(Ordering::SeqCst) {
                self.together[pair].store(1, Ordering::SeqCst);
            }
        }
        self.holds[own].store(false, Ordering::SeqCst);
        drop(held);
    }

    fn wait_or_notify(&self, random: &mut Random) {
        let (turn, changed) = &self.turn;
        let mut turn = turn.lock().unwrap();
        if random.below(2) == 0 {
            *turn += 1;
            changed.notify_all();
        } else {
            let most = std::time::Duration::from_micros(30);
            drop(changed.wait_timeout(turn, most).unwrap());
        }
    }

    fn send(&self, own: usize, random: &mut Random) {
        if random.below(2) == 0 {
            let sender = self.sender.lock().unwrap().clone();
            sender.send(own).unwrap();
        } else {
            // Where it is full nothing is sent.
            let _ = self.bounded.try_send(own);
        }
    }

    fn receive(&self, random: &mut Random) {
        let received = self.received.lock().unwrap();
        let receiver = if random.below(2) == 0 {
            &received.0
        } else {
            &received.1
        };
        let _ = receiver.try_recv();
    }
}

/// Runs a program, and counts the pairs that held at once by the clock, and those of them that are told as `none`.
fn run(seed: u64) -> (u32, u32) {
    let watch = Watch::new_pairs(&NAMES).unwrap();
    let entered = watch.enter();
    let shared = Shared::new();
    thread::scope(|scope| {
        for (own, name) in NAMES.into_iter().enumerate() {
            let shared = &shared;
            let run = move || {
                let mut random = Random::new(seed * 3 + own as u64);
                let steps = 4 + random.below(8);
                shared.play(own, &mut random, steps, 0);
                shared.barrier.wait();
                shared.play(own, &mut random, steps, 0);
            };
            let thread = thread::Builder::new().name(name.into());
            thread.spawn_scoped(&scope, run).unwrap();
        }
    });
    drop(entered);
    let mut counts = (0, 0);
    for ((_, report), together) in watch.reports().into_iter().zip(&shared.together) {
        assert!(!matches!(report, WatchReport::Undecided(_)), "{report}");
        if together.load(Ordering::SeqCst) > 0 {
            counts.0 += 1;
            counts.1 += u32::from(report == WatchReport::Nothing);
        }
    }
    counts
}

#[test]
fn what_was_at_once_is_found() {
    let mut pairs = 0;
    for seed in 1..=PROGRAMS {
        let (together, hidden) = run(seed);
        assert_eq!(hidden, 0, "of the program {seed}");
        pairs += together;
    }
    assert!(pairs > 100, "only {pairs} pairs held at once");
}
