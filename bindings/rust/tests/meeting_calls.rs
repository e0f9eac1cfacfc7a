//! Each call that a watch sees ends an interval: a process that holds comes to its meeting before it.

use std::time::Duration;
use wullaphi::sync::{mpsc, Barrier, Condvar, Mutex, Once, RwLock};
use wullaphi::{holding, thread, At, Meeting, Watch};

/// How often ada comes to her place by a call, while she holds and doesn't wait.
fn came_by<S, R>(set_up: impl FnOnce() -> S, call: impl FnOnce(S) -> R) -> u64 {
    let members = [("ada", At::Place("holds".into())), ("ben", At::Anywhere)];
    let meeting = Meeting::new(&members, Duration::ZERO).unwrap();
    let watch = Watch::new(&["ada", "ben"]).unwrap();
    watch.meet(&meeting).unwrap();
    let entered = watch.process("ada").unwrap();
    let things = set_up();
    let held = holding("holds");
    assert_eq!(meeting.account().came[0].1, 0);
    let kept = call(things);
    let count = meeting.account().came[0].1;
    drop(kept);
    drop(held);
    drop(entered);
    count
}

/// What outlives its guards.
fn lasting<T>(value: T) -> &'static T {
    Box::leak(Box::new(value))
}

fn spawned() -> thread::JoinHandle<()> {
    thread::spawn(|| ())
}

#[test]
fn a_mutex() {
    let new = || lasting(Mutex::new(()));
    assert_eq!(came_by(new, |lock| lock.lock().unwrap()), 1);
    assert_eq!(came_by(new, |lock| lock.try_lock().unwrap()), 1);
    assert_eq!(came_by(|| new().lock().unwrap(), drop), 1);
}

#[test]
fn a_condition_variable() {
    let changed = lasting(Condvar::new());
    let locked = || lasting(Mutex::new(())).lock().unwrap();
    let none = Duration::ZERO;
    assert_eq!(
        came_by(locked, |lock| changed.wait_timeout(lock, none).unwrap()),
        1
    );
    let once = |lock| changed.wait_timeout_while(lock, none, |_| true).unwrap();
    assert_eq!(came_by(locked, once), 1);
}

#[test]
fn a_lock_for_readers() {
    let new = || lasting(RwLock::new(()));
    assert_eq!(came_by(new, |lock| lock.read().unwrap()), 1);
    assert_eq!(came_by(new, |lock| lock.try_read().unwrap()), 1);
    assert_eq!(came_by(new, |lock| lock.write().unwrap()), 1);
    assert_eq!(came_by(new, |lock| lock.try_write().unwrap()), 1);
    assert_eq!(came_by(|| new().read().unwrap(), drop), 1);
    assert_eq!(came_by(|| new().write().unwrap(), drop), 1);
}

/// A call that runs ends an interval as it begins, and another one as what it ran is over.
#[test]
fn a_once() {
    assert_eq!(came_by(Once::new, |once| once.call_once(|| ())), 2);
    let done = || {
        let once = Once::new();
        once.call_once(|| ());
        once
    };
    assert_eq!(came_by(done, |once| once.call_once(|| ())), 1);
    assert_eq!(came_by(done, |once| once.is_completed()), 1);
    assert_eq!(came_by(Once::new, |once| once.is_completed()), 0);
}

#[test]
fn a_barrier() {
    assert_eq!(came_by(|| Barrier::new(1), |barrier| barrier.wait()), 1);
}

#[test]
fn a_channel() {
    let one = || {
        let (sender, receiver) = mpsc::channel();
        sender.send(()).unwrap();
        (sender, receiver)
    };
    let most = Duration::from_secs(60);
    assert_eq!(came_by(one, |it| it.0.send(()).map(|()| it).unwrap()), 1);
    assert_eq!(came_by(one, |it| it.1.recv().unwrap()), 1);
    assert_eq!(came_by(one, |it| it.1.try_recv().unwrap()), 1);
    assert_eq!(came_by(one, |it| it.1.recv_timeout(most).unwrap()), 1);
}

#[test]
fn a_channel_with_room() {
    let room = || {
        let (sender, receiver) = mpsc::sync_channel(2);
        sender.send(()).unwrap();
        (sender, receiver)
    };
    let most = Duration::from_secs(60);
    assert_eq!(came_by(room, |it| it.0.send(()).map(|()| it).unwrap()), 1);
    assert_eq!(
        came_by(room, |it| it.0.try_send(()).map(|()| it).unwrap()),
        1
    );
    assert_eq!(came_by(room, |it| it.1.recv().unwrap()), 1);
    assert_eq!(came_by(room, |it| it.1.try_recv().unwrap()), 1);
    assert_eq!(came_by(room, |it| it.1.recv_timeout(most).unwrap()), 1);
}

#[test]
fn threads() {
    assert_eq!(came_by(|| (), |()| spawned()), 1);
    assert_eq!(came_by(spawned, |thread| thread.join().unwrap()), 1);
    let ended = || {
        let thread = spawned();
        while !thread.is_finished() {
            thread::yield_now();
        }
        thread
    };
    assert_eq!(came_by(ended, |thread| thread.is_finished()), 1);
    // The end of a scope joins the threads that it has started.
    assert_eq!(came_by(|| (), |()| thread::scope(|_| ())), 1);
    let spawns = |scope: thread::Scope<'_, '_>| drop(scope.spawn(|| ()));
    assert_eq!(came_by(|| (), |()| thread::scope(spawns)), 2);
}

#[test]
fn watches() {
    let other = || Watch::new(&["cy"]).unwrap();
    let enters = |watch: Watch| (watch.process("cy").unwrap(), watch);
    assert_eq!(came_by(other, enters), 1);
    let members = [("ada", At::Anywhere), ("ben", At::Anywhere)];
    let meeting = Meeting::new(&members, Duration::ZERO).unwrap();
    let watch = Watch::new(&["ada", "ben"]).unwrap();
    watch.meet(&meeting).unwrap();
    let ada = watch.process("ada").unwrap();
    let held = holding("to the end");
    drop(ada);
    drop(held);
    assert_eq!(meeting.account().came[0].1, 1);
}

#[test]
fn conditions() {
    assert_eq!(came_by(|| (), |()| holding("again")), 1);
    assert_eq!(came_by(|| holding("within"), drop), 1);
    assert_eq!(came_by(|| (), |()| ()), 0);
}

/// Who holds nothing isn't there, wherever it is to wait.
#[test]
fn nothing_holds() {
    let members = [("ada", At::Anywhere), ("ben", At::Interval(0))];
    let meeting = Meeting::new(&members, Duration::ZERO).unwrap();
    let watch = Watch::new(&["ada", "ben"]).unwrap();
    watch.meet(&meeting).unwrap();
    for name in ["ada", "ben"] {
        let entered = watch.process(name).unwrap();
        drop(Mutex::new(()).lock().unwrap());
        spawned().join().unwrap();
        drop(entered);
    }
    let none = |name: &str| (name.to_string(), 0);
    assert_eq!(meeting.account().came, [none("ada"), none("ben")]);
}

/// A condition within another one: both hold, and each has its label.
#[test]
fn labels() {
    let members = [
        ("ada", At::Place("outer".into())),
        ("ben", At::Place("inner".into())),
    ];
    let meeting = Meeting::new(&members, Duration::ZERO).unwrap();
    let watch = Watch::new(&["ada", "ben"]).unwrap();
    watch.meet(&meeting).unwrap();
    let came = |member: usize| meeting.account().came[member].1;
    for (member, name) in ["ada", "ben"].iter().enumerate() {
        let entered = watch.process(name).unwrap();
        let outer = holding("outer");
        let inner = holding("inner");
        assert_eq!(came(member), 1 - member as u64);
        drop(inner);
        assert_eq!(came(member), 2 - member as u64);
        drop(outer);
        assert_eq!(came(member), 3 - 2 * member as u64);
        drop(entered);
        assert_eq!(came(member), 3 - 2 * member as u64);
    }
}
