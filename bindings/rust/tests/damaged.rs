//! Damaged stamps, notes and probes: each is refused, or gives what the same call gives in C.

mod common;

use common::Random;
use wullaphi::{Checker, Note, Probe, Refusal, Report, Stamp};
use wullaphi::{NOTE_SIZE, PROBE_SIZE, STAMP_SIZE};

const ROUNDS: u64 = 20_000;

/// Memory that C reads as a struct.
#[repr(C, align(8))]
struct Memory<const SIZE: usize>([u8; SIZE]);

extern "C" {
    fn wcp_probe_observe(probe: &mut Memory<PROBE_SIZE>, holds: u32) -> u32;
    fn wcp_probe_receive(probe: &mut Memory<PROBE_SIZE>, stamp: &Memory<STAMP_SIZE>) -> u32;
    fn wcp_probe_next(
        probe: &mut Memory<PROBE_SIZE>,
        tag: u64,
        note: &mut Memory<NOTE_SIZE>,
    ) -> u32;
    fn wcp_checker_new(checker: &mut Memory<16>, watch: u64, processes: u32) -> u32;
    fn wcp_checker_take(checker: &mut Memory<16>, note: &Memory<NOTE_SIZE>) -> u32;
    fn wcp_checker_report(checker: &mut Memory<16>) -> u32;
    fn wcp_checker_end(checker: &mut Memory<16>) -> u32;
}

/// The number that the header gives to what a call answers.
fn number<T>(answer: Result<T, Refusal>) -> u32 {
    match answer {
        Ok(_) => 0,
        Err(Refusal::NoProbe) => 16,
        Err(Refusal::NoStamp) => 17,
        Err(Refusal::NoNote) => 18,
        Err(Refusal::Closed) => 33,
        Err(Refusal::Backlog) => 34,
        Err(Refusal::Stranger) => 35,
        Err(Refusal::NotMine) => 36,
        Err(Refusal::Ahead) => 37,
        Err(Refusal::ClockEnd) => 38,
        Err(Refusal::OtherWatch) => 48,
        Err(Refusal::Ended) => 49,
        Err(Refusal::OutOfTurn) => 50,
        Err(Refusal::NotAgreed) => 51,
        Err(Refusal::TakenAlready) => 52,
        Err(refusal) => panic!("{refusal:?}"),
    }
}

/// The bytes with some bits flipped, or one word replaced, or all words but the first filled anew.
fn damaged<const SIZE: usize>(mut bytes: [u8; SIZE], random: &mut Random) -> [u8; SIZE] {
    match random.below(4) {
        0 => {
            for byte in &mut bytes[4..] {
                *byte = if random.below(7) == 0 {
                    random.below(256) as u8
                } else {
                    0
                };
            }
        }
        1 => bytes[4 * (1 + random.below(SIZE / 4 - 1))] = random.below(5) as u8,
        kind => {
            for _ in 0..=random.below(3) {
                let place = random.below(if kind == 2 { SIZE } else { 32 });
                bytes[place] ^= 1 << random.below(8);
            }
        }
    }
    bytes
}

fn sender() -> Probe {
    Probe::new(5, 0, 3).unwrap()
}

fn receiver() -> Probe {
    Probe::new(5, 1, 3).unwrap()
}

/// How often calls were accepted and refused.
#[derive(Default)]
struct Answers {
    accepted: u64,
    refused: u64,
}

impl Answers {
    fn count(&mut self, answer: u32) {
        if answer < 16 {
            self.accepted += 1;
        } else {
            self.refused += 1;
        }
    }

    /// A test in which one of the two hardly happens shows little.
    fn check(self) {
        let rare = self.accepted.min(self.refused);
        assert!(rare > ROUNDS / 50, "{rare}");
    }
}

#[test]
fn stamps() {
    let mut answers = Answers::default();
    for round in 0..ROUNDS {
        let stamp = sender().stamp_for(1).unwrap().to_bytes();
        let stamp = damaged(stamp, &mut Random::new(round));
        let mut memory = Memory(receiver().into_bytes());
        // SAFETY: the memory has the size and the alignment of the structs.
        let answer = unsafe { wcp_probe_receive(&mut memory, &Memory(stamp)) };
        let mut probe = receiver();
        let received = Stamp::from_bytes(&stamp).and_then(|it| probe.receive_stamp(&it));
        assert_eq!(number(received), answer, "round {round}");
        assert_eq!(probe.into_bytes(), memory.0, "round {round}");
        answers.count(answer);
    }
    answers.check();
}

#[test]
fn probes() {
    let mut answers = Answers::default();
    for round in 0..ROUNDS {
        let bytes = damaged(receiver().into_bytes(), &mut Random::new(round));
        let (mut memory, mut note) = (Memory(bytes), Memory([0; NOTE_SIZE]));
        // SAFETY: the memory has the size and the alignment of the structs.
        let answer = unsafe { wcp_probe_observe(&mut memory, 1) };
        if answer == 1 {
            // SAFETY: the same holds of the note.
            assert_eq!(unsafe { wcp_probe_next(&mut memory, 0, &mut note) }, 1);
        }
        match Probe::from_bytes(&bytes) {
            Ok(mut probe) => {
                assert_eq!(probe.clock().len(), probe.processes() as usize);
                match probe.observe(true) {
                    Ok(Some(given)) => assert_eq!((answer, given.as_bytes()), (1, &note.0)),
                    other => assert_eq!(number(other), answer, "round {round}"),
                }
                assert_eq!(probe.into_bytes(), memory.0, "round {round}");
            }
            Err(refusal) => assert_eq!(number::<()>(Err(refusal)), answer, "round {round}"),
        }
        answers.count(answer);
    }
    answers.check();
}

/// What a checker of C answers to a note, and what it reports then.
fn taken_in_c(note: [u8; NOTE_SIZE]) -> (u32, u32) {
    let mut checker = Memory([0; 16]);
    // SAFETY: a handle of zeros holds none, and then a checker; the note has the size and the alignment of the struct.
    unsafe {
        assert_eq!(wcp_checker_new(&mut checker, 5, 3), 0);
        let answer = wcp_checker_take(&mut checker, &Memory(note));
        let report = wcp_checker_report(&mut checker);
        assert_eq!(wcp_checker_end(&mut checker), 0);
        (answer, report)
    }
}

#[test]
fn notes() {
    let mut answers = Answers::default();
    for round in 0..ROUNDS {
        let note = sender().observe(true).unwrap().expect("a snapshot");
        let note = damaged(*note.as_bytes(), &mut Random::new(round));
        let (answer, report) = taken_in_c(note);
        let mut checker = Checker::new(5, 3).unwrap();
        let taken = Note::from_bytes(&note).and_then(|it| checker.take(&it));
        assert_eq!(number(taken), answer, "round {round}");
        let number = match checker.report() {
            Report::Found(_) => 2,
            Report::Nothing => 3,
            Report::Undecided => 4,
        };
        assert_eq!(number, report, "round {round}");
        answers.count(answer);
    }
    answers.check();
}

/// Bytes of any length, and of any content.
#[test]
fn other_lengths() {
    let mut random = Random::new(1);
    for length in 0..200 {
        let bytes: Vec<u8> = (0..length).map(|_| random.below(256) as u8).collect();
        assert_eq!(Stamp::from_bytes(&bytes), Err(Refusal::NoStamp));
        assert_eq!(Note::from_bytes(&bytes), Err(Refusal::NoNote));
        assert_eq!(Probe::from_bytes(&bytes).err(), Some(Refusal::NoProbe));
    }
}
