//! Memory that a checker frees, and calls for which there is no memory.

use std::process::Command;
use std::{env, fs};
use wullaphi::{single, Checker, Note, Probe, Refusal, Report};

const CHILD: &str = "WULLAPHI_TEST_CHILD";

/// Linux's number for the limit of the addresses that a process may use.
const ADDRESSES: i32 = 9;

#[repr(C)]
struct Limit {
    soft: u64,
    hard: u64,
}

extern "C" {
    fn setrlimit(resource: i32, limit: &Limit) -> i32;
}

/// Whether this is the process that runs the test. Any other starts that one, and fails where it does: the limits
/// are those of a whole process, and only where all threads share one heap does it stop at once.
fn is_child(test: &str) -> bool {
    if env::var_os(CHILD).is_some() {
        return true;
    }
    let ran = Command::new(env::current_exe().unwrap())
        .args(["--exact", test, "--nocapture"])
        .envs([(CHILD, "1"), ("MALLOC_ARENA_MAX", "1")])
        .output()
        .unwrap();
    assert!(ran.status.success(), "{ran:?}");
    false
}

/// A size of this process in bytes, by its name in Linux.
fn size(name: &str) -> u64 {
    let status = fs::read_to_string("/proc/self/status").unwrap();
    let line = status.lines().find(|line| line.starts_with(name)).unwrap();
    let kibibytes: u64 = line.split_whitespace().nth(1).unwrap().parse().unwrap();
    kibibytes * 1024
}

fn limit_memory(soft: u64) {
    let limit = Limit {
        soft,
        hard: u64::MAX,
    };
    // SAFETY: the call reads the limit, which is laid out as `struct rlimit`.
    assert_eq!(unsafe { setrlimit(ADDRESSES, &limit) }, 0);
}

fn many_notes(count: usize) -> Vec<Note> {
    let mut probe = Probe::new(1, 0, 2).unwrap();
    let mut notes = Vec::with_capacity(count);
    for _ in 0..count {
        notes.extend(probe.observe(true).unwrap());
        probe.stamp_for(1).unwrap();
    }
    notes
}

#[test]
fn a_dropped_checker_is_freed() {
    if !is_child("a_dropped_checker_is_freed") {
        return;
    }
    let notes = many_notes(1000);
    let take_all = || {
        let mut checker = Checker::new(1, 2).unwrap();
        notes.iter().for_each(|note| checker.take(note).unwrap());
        assert_eq!(checker.taken(0), Ok(1000));
    };
    take_all();
    let before = size("VmSize:");
    for _ in 0..1000 {
        take_all();
    }
    let more = size("VmSize:") - before;
    assert!(more < 4_000_000, "{more} bytes more");
}

#[test]
fn a_refused_note_is_taken_later() {
    if !is_child("a_refused_note_is_taken_later") {
        return;
    }
    let notes = many_notes(100_000);
    let mut checker = Checker::new(1, 2).unwrap();
    let mut refused = 0;
    limit_memory(size("VmSize:"));
    for note in &notes {
        if let Err(refusal) = checker.take(note) {
            limit_memory(u64::MAX);
            assert_eq!(refusal, Refusal::NoMemory);
            refused += 1;
            checker.take(note).unwrap();
        }
    }
    limit_memory(u64::MAX);
    assert_eq!((refused, checker.taken(0)), (1, Ok(100_000)));
}

#[test]
fn a_starved_question_says_so() {
    if !is_child("a_starved_question_says_so") {
        return;
    }
    let notes = many_notes(100_000);
    let mut checker = Checker::new_sets(1, 2, &[&[0, 1][..], &[0][..]]).unwrap();
    assert_eq!(checker.is_starved(0), Ok(false));
    limit_memory(size("VmSize:"));
    notes.iter().for_each(|note| checker.take(note).unwrap());
    limit_memory(u64::MAX);
    let mut loaded = Checker::load(&checker.save().unwrap()).unwrap();
    for checker in [&mut checker, &mut loaded] {
        assert_eq!(checker.is_starved(0), Ok(true));
        assert_eq!(checker.is_starved(1), Ok(false));
        assert_eq!(checker.is_starved(2), Err(Refusal::OutOfRange));
        assert_eq!(checker.report_of(0), Ok(Report::Undecided));
        assert_eq!(checker.report_of(1), Ok(Report::Found(vec![Some(0), None])));
        assert_eq!(checker.taken(0), Ok(100_000));
    }
}

#[test]
fn a_refused_text_is_answered_later() {
    if !is_child("a_refused_text_is_answered_later") {
        return;
    }
    let text = "wcp 1\nprocs 2\n".to_string() + &"p 0 true\n".repeat(60_000);
    limit_memory(size("VmSize:"));
    let refused = single(text.as_bytes());
    limit_memory(u64::MAX);
    assert_eq!(refused, Err(Refusal::NoMemory));
    assert_eq!(single(text.as_bytes()).unwrap().status, 1);
}
