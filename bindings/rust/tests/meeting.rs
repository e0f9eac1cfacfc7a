//! Threads of a watch that meet in a second run, at the moment that the first one has found.

use std::sync::mpsc::channel as plain_channel;
use std::sync::Mutex as PlainMutex;
use std::time::{Duration, Instant};
use wullaphi::sync::{mpsc, Barrier, Condvar, Mutex};
use wullaphi::{holding, thread, At, Meeting, Member, Watch, WatchError, WatchReport};

/// More than any wait takes that is to end before.
const LONG: Duration = Duration::from_secs(600);
const SHORT: Duration = Duration::from_millis(5);

type Made = fn(&[Member], Duration) -> Result<Meeting, WatchError>;

const WAYS: [Made; 3] = [Meeting::at_intervals, Meeting::at_places, Meeting::anywhere];

/// What is reported of ada, who does the one, and ben, who does the other, with what they share.
fn run<T: Sync>(
    meeting: Option<&Meeting>,
    shared: &T,
    ada: impl Fn(&T) + Send + Sync,
    ben: impl Fn(&T) + Send + Sync,
) -> WatchReport {
    let watch = Watch::new(&["ada", "ben"]).unwrap();
    if let Some(meeting) = meeting {
        watch.meet(meeting).unwrap();
    }
    let entered = watch.enter();
    thread::scope(|scope| {
        let start = |name: &str| thread::Builder::new().name(name.into());
        start("ada").spawn_scoped(&scope, || ada(shared)).unwrap();
        start("ben").spawn_scoped(&scope, || ben(shared)).unwrap();
    });
    drop(entered);
    watch.report()
}

/// The texts of so many second runs, which wait where the first one has found a moment.
fn accounts<T: Sync>(
    runs: usize,
    (way, patience): (Made, Duration),
    make: impl Fn() -> T,
    ada: impl Fn(&T) + Send + Sync,
    ben: impl Fn(&T) + Send + Sync,
) -> Vec<String> {
    let moment = match run(None, &make(), &ada, &ben) {
        WatchReport::Found(moment) => moment,
        report => panic!("{report}"),
    };
    let account = |_| {
        let meeting = way(&moment, patience).unwrap();
        assert!(matches!(
            run(Some(&meeting), &make(), &ada, &ben),
            WatchReport::Found(_)
        ));
        meeting.account().to_string()
    };
    (0..runs).map(account).collect()
}

fn works() {
    drop(holding("works"));
}

#[track_caller]
fn assert_that_all_met(accounts: &[String], runs: usize) {
    let met = accounts.iter().filter(|it| it.starts_with("met: ada at "));
    assert_eq!(met.count(), runs, "{accounts:?}");
}

#[test]
fn nothing_is_shared() {
    for way in WAYS {
        let accounts = accounts(100, (way, LONG), || (), |_| works(), |_| works());
        assert_that_all_met(&accounts, 100);
    }
}

/// The lock isn't seen, so the moment is found; it can't be.
#[test]
fn one_plain_lock() {
    for way in WAYS {
        let work = |lock: &PlainMutex<()>| {
            let _lock = lock.lock().unwrap();
            works();
        };
        for account in accounts(100, (way, SHORT), || PlainMutex::new(()), work, work) {
            assert_eq!(
                account,
                "not met: ada gave up 1 time while ben was missing; ben gave up 1 time while ada was missing"
            );
        }
    }
}

type Channel = (PlainMutex<mpsc::Sender<()>>, PlainMutex<mpsc::Receiver<()>>);

fn new_channel() -> Channel {
    let (sender, receiver) = mpsc::channel();
    (PlainMutex::new(sender), PlainMutex::new(receiver))
}

/// Is true, sends within, and stays true.
fn sends((sender, _): &Channel) {
    let sender = sender.lock().unwrap();
    let _held = holding("sends");
    sender.send(()).unwrap();
}

/// Is true once it has received.
fn receives((_, receiver): &Channel) {
    receiver.lock().unwrap().recv().unwrap();
    let _held = holding("has received");
}

/// One that waited where it is true first would hold back what the other waits for.
#[test]
fn one_sends_and_stays() {
    let way: Made = Meeting::at_intervals;
    let accounts = accounts(30, (way, LONG), new_channel, sends, receives);
    assert_that_all_met(&accounts, 30);
}

/// The same, where the other is started within.
#[test]
fn one_starts_the_other() {
    let names = ["ada", "ben"];
    let run = |meeting: Option<&Meeting>| {
        let watch = Watch::new(&names).unwrap();
        meeting.map_or(Ok(()), |it| watch.meet(it)).unwrap();
        let ada = watch.process("ada").unwrap();
        let held = holding("starts");
        let ben = thread::Builder::new().name("ben".into()).spawn(works);
        drop(held);
        ben.unwrap().join().unwrap();
        drop(ada);
        watch.report()
    };
    let moment = match run(None) {
        WatchReport::Found(moment) => moment,
        report => panic!("{report}"),
    };
    let intervals: Vec<u32> = moment.iter().map(|it| it.interval).collect();
    assert_eq!(intervals, [1, 1]);
    for _ in 0..30 {
        let meeting = Meeting::at_intervals(&moment, LONG).unwrap();
        run(Some(&meeting));
        assert_eq!(meeting.account().met, Some(moment.clone()));
    }
}

/// Ada waits in vain, and ben goes on when she has waited, or when she waits.
#[test]
fn nobody_waits_for_ever() {
    let ends_later = |meeting: &Meeting| {
        while meeting.account().came[0].1 == 0 {
            thread::yield_now();
        }
    };
    let told = "not met: ben never came to its place; ada gave up 1 time while ben was missing";
    let meeting = || {
        let at = || At::Place("works".into());
        Meeting::new(&[("ada", at()), ("ben", at())], LONG).unwrap()
    };
    let early = meeting();
    run(Some(&early), &early, |_| works(), |_| ());
    assert_eq!(early.account().to_string(), told);
    let late = meeting();
    run(Some(&late), &late, |_| works(), ends_later);
    assert_eq!(late.account().to_string(), told);
    let at = || At::Place("works".into());
    let patient = Meeting::new(&[("ada", at()), ("ben", at())], SHORT).unwrap();
    let (opens, gate) = plain_channel();
    let (opens, gate) = (PlainMutex::new(opens), PlainMutex::new(gate));
    let waits = |_: &Meeting| {
        works();
        opens.lock().unwrap().send(()).unwrap();
    };
    let works_elsewhere = |_: &Meeting| {
        drop(holding("elsewhere"));
        gate.lock().unwrap().recv().unwrap();
    };
    run(Some(&patient), &patient, waits, works_elsewhere);
    assert_eq!(patient.account().to_string(), told);
}

/// Each of three comes once the one before it waits, and the first goes on waiting when the second one comes.
#[test]
fn three_meet() {
    let names = ["ada", "ben", "cy"];
    let members = names.map(|name| (name, At::Anywhere));
    for _ in 0..20 {
        let meeting = Meeting::new(&members, LONG).unwrap();
        let comes = |place: usize| {
            while place > 0 && meeting.account().came[place - 1].1 == 0 {
                thread::yield_now();
            }
            thread::sleep(SHORT);
            meeting.arrive(names[place], 0, "")
        };
        let answers: Vec<_> = thread::scope(|scope| {
            let threads: Vec<_> = (0..3)
                .map(|place| scope.spawn(move || comes(place)))
                .collect();
            threads.into_iter().map(|it| it.join().unwrap()).collect()
        });
        assert_eq!(answers, [Ok(true), Ok(true), Ok(true)]);
        assert_eq!(
            meeting.account().to_string(),
            "met: ada in interval 0, ben in interval 0, cy in interval 0"
        );
    }
}

/// The time of the processor that the calling thread has used, in ticks of 10 milliseconds.
fn ticks() -> u64 {
    let stat = std::fs::read_to_string("/proc/thread-self/stat").unwrap();
    let fields: Vec<&str> = stat[stat.rfind(')').unwrap()..].split(' ').collect();
    fields[12].parse::<u64>().unwrap() + fields[13].parse::<u64>().unwrap()
}

/// How often the calling thread has gone to sleep.
fn sleeps() -> u64 {
    let status = std::fs::read_to_string("/proc/thread-self/status").unwrap();
    let count = |line: &str| {
        Some(
            line.strip_prefix("voluntary_ctxt_switches:")?
                .trim()
                .to_string(),
        )
    };
    status.lines().find_map(count).unwrap().parse().unwrap()
}

#[test]
fn a_wait_takes_no_processor_time() {
    let both = [("ada", At::Anywhere), ("ben", At::Anywhere)];
    let meeting = Meeting::new(&both, Duration::from_millis(500)).unwrap();
    let (began, used, slept) = (Instant::now(), ticks(), sleeps());
    assert_eq!(meeting.arrive("ada", 0, ""), Ok(false));
    assert!(began.elapsed() >= Duration::from_millis(500));
    assert!(ticks() - used < 10);
    assert!((1..50).contains(&(sleeps() - slept)));
}

/// Both meet in their first intervals.
fn assert_that_they_meet<T: Sync>(
    shared: impl FnOnce(Meeting) -> T,
    ada: impl Fn(&T) + Send + Sync,
    ben: impl Fn(&T) + Send + Sync,
) {
    let both = [("ada", At::Interval(0)), ("ben", At::Interval(0))];
    let meeting = Meeting::new(&both, LONG).unwrap();
    run(Some(&meeting), &shared(meeting.clone()), ada, ben);
    assert!(meeting.account().met.is_some());
}

/// Ada waits before she gets the lock that ben has.
#[test]
fn before_a_lock() {
    let (has_it, gate) = plain_channel();
    let (has_it, gate) = (PlainMutex::new(has_it), PlainMutex::new(gate));
    assert_that_they_meet(
        |meeting| (Mutex::new(()), meeting),
        |(lock, _)| {
            gate.lock().unwrap().recv().unwrap();
            let _held = holding("before");
            drop(lock.lock().unwrap());
        },
        |(lock, meeting)| {
            let _lock = lock.lock().unwrap();
            has_it.lock().unwrap().send(()).unwrap();
            while meeting.account().came[0].1 == 0 {
                thread::yield_now();
            }
            let _held = holding("within");
        },
    );
}

#[test]
fn before_a_barrier() {
    let waits = |barrier: &Barrier| {
        let _held = holding("before");
        barrier.wait();
    };
    assert_that_they_meet(|_| Barrier::new(2), waits, waits);
}

/// Ada waits before she waits for her turn, and ben before he gives it.
#[test]
fn before_a_turn() {
    assert_that_they_meet(
        |_| (Mutex::new(false), Condvar::new()),
        |(turn, changed)| {
            let turn = turn.lock().unwrap();
            let _held = holding("before");
            drop(changed.wait_while(turn, |turn| !*turn).unwrap());
        },
        |(turn, changed)| {
            works();
            *turn.lock().unwrap() = true;
            changed.notify_one();
        },
    );
}

/// Ada waits before a channel that is full, and ben before he makes room.
#[test]
fn before_a_full_channel() {
    assert_that_they_meet(
        |_| {
            let (sender, receiver) = mpsc::sync_channel(0);
            (sender, PlainMutex::new(receiver))
        },
        |(sender, _)| {
            let _held = holding("sends");
            sender.send(()).unwrap();
        },
        |(_, receiver)| {
            let _held = holding("receives");
            receiver.lock().unwrap().recv().unwrap();
        },
    );
}

#[test]
fn what_a_meeting_and_a_watch_refuse() {
    let at = At::Anywhere;
    let names: Vec<String> = (0..17).map(|it| it.to_string()).collect();
    let all: Vec<(&str, At)> = names.iter().map(|it| (it.as_str(), at.clone())).collect();
    let new = |members: &[(&str, At)]| Meeting::new(members, SHORT).map(|_| ());
    assert_eq!(new(&[]), Err(WatchError::Members));
    assert_eq!(new(&all), Err(WatchError::Members));
    assert_eq!(new(&all[..16]), Ok(()));
    assert_eq!(
        new(&[all[0].clone(), all[0].clone()]),
        Err(WatchError::Members)
    );
    let meeting = Meeting::new(&[("ada", at.clone()), ("cy", at.clone())], SHORT).unwrap();
    let nobody = || WatchError::NoProcess("ben".into());
    assert_eq!(meeting.arrive("ben", 0, ""), Err(nobody()));
    assert_eq!(meeting.ended("ben"), Err(nobody()));
    let watch = Watch::new(&["ada", "ben"]).unwrap();
    let cy = WatchError::NoProcess("cy".into());
    assert_eq!(watch.meet(&meeting), Err(cy));
    let ada = || Meeting::new(&[("ada", at.clone())], SHORT).unwrap();
    let used = ada();
    assert_eq!(used.arrive("ada", 0, ""), Ok(true));
    assert_eq!(watch.meet(&used), Err(WatchError::Meeting));
    let meeting = ada();
    assert_eq!(watch.meet(&meeting), Ok(()));
    assert_eq!(watch.meet(&ada()), Err(WatchError::Meeting));
    let other = Watch::new(&["ada", "ben"]).unwrap();
    assert_eq!(other.meet(&meeting), Err(WatchError::Meeting));
    drop(other.process("ben").unwrap());
    assert_eq!(other.meet(&ada()), Err(WatchError::Begun("ben".into())));
}
