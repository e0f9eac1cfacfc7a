//! Random computations, each with the report of a checker and that of a search over all cuts.

mod common;

use common::Random;
use std::collections::VecDeque;
use wullaphi::{Checker, Note, Options, Probe, Refusal, Report, Stamp, Stamped};

const COMPUTATIONS: u64 = 20_000;
const MOST_EVENTS: u32 = 6;
const MOST_STEPS: usize = 40;

/// A message from the `sent`-th event of its sender to the `received`-th event of its receiver, if it arrived.
struct Message {
    from: usize,
    sent: u32,
    to: usize,
    received: Option<u32>,
}

/// A message in flight, with its number.
enum Flying {
    Value(Stamped<usize>),
    Bytes(Vec<u8>, usize),
}

/// The tag of a note: some have none.
fn tag_of(process: usize, interval: u32) -> u64 {
    if interval % 3 == 2 {
        return 0;
    }
    (u64::from(interval) + 1) << 32 | process as u64
}

/// What happened, told without clocks.
struct History {
    watched: Vec<usize>,
    /// Whether the condition of a process was seen to hold in an interval.
    holds: Vec<Vec<bool>>,
    messages: Vec<Message>,
}

impl History {
    fn events(&self, process: usize) -> u32 {
        self.holds[process].len() as u32 - 1
    }

    fn begin_interval(&mut self, process: usize) -> u32 {
        self.holds[process].push(false);
        self.events(process)
    }

    /// Whether the conditions hold in a cut, and each message that was received in it was sent in it.
    fn is_bad(&self, cut: &[u32]) -> bool {
        let is_consistent = self.messages.iter().all(|it| match it.received {
            Some(received) => received > cut[it.to] || it.sent <= cut[it.from],
            None => true,
        });
        is_consistent
            && self
                .watched
                .iter()
                .all(|p| self.holds[*p][cut[*p] as usize])
    }

    /// The least interval of each watched process in all bad cuts.
    fn search(&self) -> Option<Vec<Option<u32>>> {
        let processes = self.holds.len();
        let mut cut = vec![0; processes];
        let mut least: Option<Vec<Option<u32>>> = None;
        loop {
            if self.is_bad(&cut) {
                let found = least.get_or_insert_with(|| vec![None; processes]);
                for p in &self.watched {
                    found[*p] = Some(found[*p].map_or(cut[*p], |other| other.min(cut[*p])));
                }
            }
            match (0..processes).find(|p| cut[*p] < self.events(*p)) {
                Some(place) => {
                    cut[..place].fill(0);
                    cut[place] += 1;
                }
                None => return least,
            }
        }
    }
}

/// The probes of a computation that runs.
struct Computation {
    probes: Vec<Probe>,
    notes: Vec<VecDeque<Note>>,
    flying: Vec<Vec<Flying>>,
    history: History,
}

impl Computation {
    fn new(random: &mut Random) -> Computation {
        let processes = 1 + random.below(4);
        let mut watched: Vec<usize> = (0..processes).filter(|_| random.below(4) > 0).collect();
        if watched.is_empty() {
            watched.push(random.below(processes));
        }
        let probe = |process: usize| {
            let options = Options {
                watched: watched.contains(&process) || random.below(2) == 0,
                flag_of_sends: random.below(2) == 0,
            };
            Probe::new_with(9, process as u32, processes as u32, options).unwrap()
        };
        Computation {
            probes: (0..processes).map(probe).collect(),
            notes: vec![VecDeque::new(); processes],
            flying: (0..processes).map(|_| Vec::new()).collect(),
            history: History {
                watched,
                holds: vec![vec![false]; processes],
                messages: Vec::new(),
            },
        }
    }

    fn observe(&mut self, p: usize, holds: bool) {
        let interval = self.history.events(p) as usize;
        self.history.holds[p][interval] |= holds;
        let tag = tag_of(p, self.history.events(p));
        self.notes[p].extend(self.probes[p].observe_tagged(holds, tag).unwrap());
    }

    fn send(&mut self, p: usize, to: usize, as_bytes: bool) {
        let number = self.history.messages.len();
        self.flying[to].push(if as_bytes {
            let stamp = self.probes[p].stamp_for(to as u32).unwrap();
            Flying::Bytes(stamp.to_bytes().to_vec(), number)
        } else {
            Flying::Value(self.probes[p].stamp(to as u32, number).unwrap())
        });
        let sent = self.history.begin_interval(p);
        self.history.messages.push(Message {
            from: p,
            sent,
            to,
            received: None,
        });
    }

    /// Receives one of the messages that are in flight to a process; they arrive in any order.
    fn receive(&mut self, p: usize, random: &mut Random) {
        let place = random.below(self.flying[p].len());
        let number = match self.flying[p].swap_remove(place) {
            Flying::Value(message) => self.probes[p].receive(message).unwrap(),
            Flying::Bytes(bytes, number) => {
                let stamp = Stamp::from_bytes(&bytes).unwrap();
                self.probes[p].receive_stamp(&stamp).unwrap();
                number
            }
        };
        self.history.messages[number].received = Some(self.history.begin_interval(p));
    }

    fn step(&mut self, random: &mut Random) {
        let p = random.below(self.probes.len());
        let to = random.below(self.probes.len());
        let is_full = self.history.events(p) == MOST_EVENTS;
        match random.below(8) {
            0..=2 if to != p && !is_full => self.send(p, to, random.below(2) == 0),
            3..=5 if !self.flying[p].is_empty() && !is_full => self.receive(p, random),
            6 => self.observe(p, true),
            _ => self.observe(p, false),
        }
        assert_eq!(self.probes[p].clock()[p], self.history.events(p));
    }

    /// A checker's report of all notes, which come in any order that keeps those of each process in theirs.
    fn check(&mut self, random: &mut Random) -> Report {
        let watched: Vec<u32> = self.history.watched.iter().map(|p| *p as u32).collect();
        let mut checker = Checker::new_with(9, self.probes.len() as u32, &watched).unwrap();
        let mut report = checker.report();
        let mut taken = vec![Vec::new(); self.probes.len()];
        while self.notes.iter().any(|notes| !notes.is_empty()) {
            let p = random.below(self.notes.len());
            if random.below(4) == 0 && !taken[p].is_empty() {
                let again = &taken[p][random.below(taken[p].len())];
                assert_eq!(checker.take(again), Err(Refusal::TakenAlready));
            }
            if let Some(later) = self.notes[p].get(1) {
                assert_eq!(checker.take(later), Err(Refusal::OutOfTurn));
            }
            if let Some(note) = self.notes[p].pop_front() {
                let note = Note::from_bytes(note.as_bytes()).unwrap();
                checker.take(&note).unwrap();
                taken[p].push(note);
                let next = checker.report();
                assert!(
                    report == Report::Undecided || report == next,
                    "{report:?} becomes {next:?}"
                );
                report = next;
            }
        }
        for process in 0..self.probes.len() as u32 {
            let tag = checker
                .cut(process)
                .map(|interval| tag_of(process as usize, interval));
            assert_eq!(checker.tag(process), tag);
        }
        report
    }
}

/// The report of the checker, and that of the search.
fn reports(seed: u64) -> (Report, Report) {
    let mut random = Random::new(seed);
    let mut computation = Computation::new(&mut random);
    for _ in 0..random.below(MOST_STEPS) {
        computation.step(&mut random);
    }
    let unclosed = random.below(16);
    for p in (0..computation.probes.len()).filter(|p| *p != unclosed) {
        let last = computation.probes[p].close().unwrap();
        computation.notes[p].push_back(last);
    }
    let searched = match computation.history.search() {
        Some(cut) => Report::Found(cut),
        None if unclosed < computation.probes.len() => Report::Undecided,
        None => Report::Nothing,
    };
    (computation.check(&mut random), searched)
}

#[test]
fn reports_are_those_of_a_search() {
    let mut counts = [0; 3];
    for seed in 0..COMPUTATIONS {
        let (report, searched) = reports(seed);
        assert_eq!(report, searched, "seed {seed}");
        counts[match report {
            Report::Found(_) => 0,
            Report::Nothing => 1,
            Report::Undecided => 2,
        }] += 1;
    }
    println!("{counts:?} found, nothing, undecided");
    assert!(
        counts.iter().all(|count| *count > COMPUTATIONS / 20),
        "{counts:?}"
    );
}
