//! Several questions of one checker, and checkers that are saved.

mod common;

use common::Random;
use wullaphi::{Checker, Note, Probe, Refusal, Report, Stamp};

const COMPUTATIONS: u64 = 20_000;
const SAVED_RUNS: u64 = 200;
const WATCH: u64 = 7;

/// The notes of a random computation, in an order that keeps those of each process in theirs.
fn computation(random: &mut Random, processes: usize, steps: usize, close: bool) -> Vec<Note> {
    let probe = |process: usize| Probe::new(WATCH, process as u32, processes as u32).unwrap();
    let mut probes: Vec<Probe> = (0..processes).map(probe).collect();
    let mut flying: Vec<(usize, Stamp)> = Vec::new();
    let mut notes = Vec::new();
    for _ in 0..steps {
        let p = random.below(processes);
        match random.below(4) {
            0 | 1 => {
                let tag = random.below(4) as u64;
                notes.extend(probes[p].observe_tagged(random.below(3) == 0, tag).unwrap());
            }
            2 if processes > 1 => {
                let to = (p + 1 + random.below(processes - 1)) % processes;
                flying.push((to, probes[p].stamp_for(to as u32).unwrap()));
            }
            _ if !flying.is_empty() => {
                let (to, stamp) = flying.swap_remove(random.below(flying.len()));
                probes[to].receive_stamp(&stamp).unwrap();
            }
            _ => {}
        }
    }
    if close {
        notes.extend(probes.iter_mut().map(|probe| probe.close().unwrap()));
    }
    notes
}

/// All that a question tells.
fn told(checker: &mut Checker, question: u32) -> (Report, Vec<Result<(u32, u64), Refusal>>) {
    let report = checker.report_of(question).unwrap();
    let member = |p| Ok((checker.cut_of(question, p)?, checker.tag_of(question, p)?));
    let members = (0..wullaphi::MAX_PROCESSES).map(member).collect();
    (report, members)
}

#[test]
fn pairs_tell_what_a_checker_for_each_tells() {
    let mut found = 0;
    for seed in 0..COMPUTATIONS {
        let mut random = Random::new(seed);
        let processes = 2 + random.below(3);
        let steps = random.below(40);
        let notes = computation(&mut random, processes, steps, seed % 2 == 0);
        let mut panel = Checker::new_pairs(WATCH, processes as u32).unwrap();
        notes.iter().for_each(|note| panel.take(note).unwrap());
        let mut question = 0;
        for a in 0..processes as u32 {
            for b in a + 1..processes as u32 {
                let mut alone = Checker::new_with(WATCH, processes as u32, &[a, b]).unwrap();
                notes.iter().for_each(|note| alone.take(note).unwrap());
                assert_eq!(
                    told(&mut panel, question),
                    told(&mut alone, 0),
                    "seed {seed}"
                );
                found += u64::from(matches!(alone.report(), Report::Found(_)));
                question += 1;
            }
        }
        assert_eq!(panel.questions(), question);
        assert_eq!(panel.reports()[0], panel.report());
    }
    assert!(found > COMPUTATIONS / 10, "{found}");
}

/// A checker of a kind of its own, and a clone of it.
fn kinds(kind: u64, random: &mut Random, processes: u32) -> (Checker, Checker) {
    let sets: Vec<Vec<u32>> = (0..4)
        .map(|_| {
            (0..1 + random.below(3))
                .map(|_| random.below(processes as usize) as u32)
                .collect()
        })
        .collect();
    let make = || match kind % 4 {
        0 => Checker::new(WATCH, processes),
        1 => Checker::new_pairs(WATCH, processes),
        2 => Checker::new_sets(WATCH, processes, &sets),
        _ => Checker::new_with(WATCH, processes, &sets[0]),
    };
    (make().unwrap(), make().unwrap())
}

#[test]
fn a_loaded_checker_goes_on() {
    for run in 0..SAVED_RUNS {
        let mut random = Random::new(run);
        let processes = 2 + random.below(4);
        let notes = computation(&mut random, processes, 60, run % 2 == 0);
        let (mut whole, mut saved) = kinds(run / 2, &mut random, processes as u32);
        for note in &notes {
            let bytes = saved.save().unwrap();
            saved = Checker::load(&bytes).unwrap();
            assert_eq!(saved.save().unwrap(), bytes);
            assert_eq!(saved.processes(), processes as u32);
            whole.take(note).unwrap();
            saved.take(note).unwrap();
            assert_eq!(saved.take(note), Err(Refusal::TakenAlready));
        }
        assert_eq!(saved.questions(), whole.questions());
        for question in 0..whole.questions() {
            assert_eq!(
                told(&mut saved, question),
                told(&mut whole, question),
                "run {run}"
            );
        }
    }
}

#[test]
fn each_byte_of_a_saved_checker_counts() {
    let mut random = Random::new(1);
    let notes = computation(&mut random, 3, 40, false);
    let mut checker = Checker::new_pairs(WATCH, 3).unwrap();
    notes.iter().for_each(|note| checker.take(note).unwrap());
    let mut bytes = checker.save().unwrap();
    for place in 0..bytes.len() {
        for flip in [1, 4, 0x80, 0xFF] {
            bytes[place] ^= flip;
            assert_eq!(Checker::load(&bytes).err(), Some(Refusal::NoSaved));
            bytes[place] ^= flip;
        }
        assert_eq!(Checker::load(&bytes[..place]).err(), Some(Refusal::NoSaved));
    }
    assert!(Checker::load(&bytes).is_ok());
    bytes.push(0);
    assert_eq!(Checker::load(&bytes).err(), Some(Refusal::NoSaved));
    for _ in 0..1000 {
        let junk: Vec<u8> = (0..random.below(300))
            .map(|_| random.below(256) as u8)
            .collect();
        assert_eq!(Checker::load(&junk).err(), Some(Refusal::NoSaved));
    }
}

#[test]
fn refused_questions() {
    let sets: [&[u32]; 3] = [&[0, 1], &[2], &[0, 2, 2]];
    let mut checker = Checker::new_sets(WATCH, 3, &sets).unwrap();
    assert_eq!(checker.questions(), 3);
    assert_eq!(checker.reports(), vec![Report::Undecided; 3]);
    assert_eq!(checker.report_of(3), Err(Refusal::OutOfRange));
    assert_eq!(checker.cut_of(3, 0), Err(Refusal::OutOfRange));
    assert_eq!(checker.tag_of(u32::MAX, 0), Err(Refusal::OutOfRange));
    assert_eq!(checker.cut_of(2, 0), Err(Refusal::NotInCut));
    let wrong: [&[&[u32]]; 6] = [&[], &[&[]], &[&[3]], &[&[32]], &[&[u32::MAX]], &[&[0], &[]]];
    for sets in wrong {
        assert_eq!(
            Checker::new_sets(WATCH, 3, sets).err(),
            Some(Refusal::OutOfRange)
        );
    }
    let many = vec![[0]; 1025];
    assert_eq!(
        Checker::new_sets(WATCH, 3, &many).err(),
        Some(Refusal::OutOfRange)
    );
    assert_eq!(
        Checker::new_sets(WATCH, 3, &many[1..]).unwrap().questions(),
        1024
    );
    for processes in [0, 1, 17] {
        assert_eq!(
            Checker::new_pairs(WATCH, processes).err(),
            Some(Refusal::OutOfRange)
        );
    }
    assert_eq!(Checker::new_pairs(WATCH, 16).unwrap().questions(), 120);
}

#[test]
fn a_process_that_is_named_twice_counts_once() -> Result<(), Refusal> {
    let mut once = Checker::new_with(1, 3, &[0, 2])?;
    let mut twice = Checker::new_with(1, 3, &[2, 0, 2])?;
    assert_eq!(twice.save()?, once.save()?);
    let mut once = Checker::new_sets(1, 3, &[[0].as_slice(), &[1, 2]])?;
    let mut twice = Checker::new_sets(1, 3, &[[0, 0].as_slice(), &[2, 1, 1]])?;
    assert_eq!(twice.save()?, once.save()?);
    Ok(())
}
