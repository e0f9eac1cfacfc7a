use std::error::Error;
use std::fmt;

/// Why a call was refused. A call that is refused has changed nothing.
///
/// The names are those of `wullaphi.h`. Three answers of the header never come in Rust: a [`Checker`](crate::Checker)
/// always holds a checker, and [`single`](crate::single()) makes room for its text.
#[derive(Clone, Copy, Debug, PartialEq, Eq, Hash)]
pub enum Refusal {
    /// The bytes are no probe, or a damaged one.
    NoProbe,
    /// The bytes are no stamp, or a damaged one.
    NoStamp,
    /// The bytes are no note, or a damaged one, or one of version 1.
    NoNote,
    /// A number names no process or no question, or too few or too many of them.
    OutOfRange,
    /// There is no memory.
    NoMemory,
    /// No cut was found, or the process is not watched.
    NotInCut,
    /// The bytes are no saved checker, or a damaged one, or of another version.
    NoSaved,
    /// The receiver is no process of the watch, or is the probe's own.
    NoSuch,
    /// The probe is closed.
    Closed,
    /// A note is pending: take it by [`Probe::next_note`](crate::Probe::next_note) first. Only a probe that came as
    /// bytes, from a program in C, can have one.
    Backlog,
    /// The stamp or the note is of another watch.
    Stranger,
    /// The stamp is addressed to another process.
    NotMine,
    /// The stamp knows of events of this process that it has not made.
    Ahead,
    /// The process has made as many events as a clock can count: 4,294,967,294.
    ClockEnd,
    /// The note is of a watch of another number of processes.
    OtherWatch,
    /// The process was closed, or lost.
    Ended,
    /// A note of the process that comes before this one is missing.
    OutOfTurn,
    /// Some question watches the process, whose probe has no condition.
    NotAgreed,
    /// The note was taken before: drop it, and go on.
    TakenAlready,
}

impl Refusal {
    /// The refusal that an answer of the library stands for.
    fn of(answer: u32) -> Option<Refusal> {
        Some(match answer {
            16 => Refusal::NoProbe,
            17 => Refusal::NoStamp,
            18 => Refusal::NoNote,
            20 => Refusal::OutOfRange,
            22 => Refusal::NoMemory,
            23 => Refusal::NotInCut,
            25 => Refusal::NoSaved,
            32 => Refusal::NoSuch,
            33 => Refusal::Closed,
            34 => Refusal::Backlog,
            35 => Refusal::Stranger,
            36 => Refusal::NotMine,
            37 => Refusal::Ahead,
            38 => Refusal::ClockEnd,
            48 => Refusal::OtherWatch,
            49 => Refusal::Ended,
            50 => Refusal::OutOfTurn,
            51 => Refusal::NotAgreed,
            52 => Refusal::TakenAlready,
            _ => return None,
        })
    }

    fn text(self) -> &'static str {
        match self {
            Refusal::NoProbe => "the bytes are no probe, or a damaged one",
            Refusal::NoStamp => "the bytes are no stamp, or a damaged one",
            Refusal::NoNote => "the bytes are no note, or a damaged one, or one of version 1",
            Refusal::OutOfRange => {
                "a number names no process or no question, or too few or too many"
            }
            Refusal::NoMemory => "there is no memory",
            Refusal::NotInCut => "no cut was found, or the process is not watched",
            Refusal::NoSaved => "the bytes are no saved checker, or a damaged one",
            Refusal::NoSuch => "the receiver is no process of the watch, or is the probe's own",
            Refusal::Closed => "the probe is closed",
            Refusal::Backlog => "a note is pending: take it first",
            Refusal::Stranger => "the stamp or the note is of another watch",
            Refusal::NotMine => "the stamp is addressed to another process",
            Refusal::Ahead => "the stamp knows of events of this process that it has not made",
            Refusal::ClockEnd => "the process has made as many events as a clock can count",
            Refusal::OtherWatch => "the note is of a watch of another number of processes",
            Refusal::Ended => "the process was closed, or lost",
            Refusal::OutOfTurn => "a note of the process that comes before this one is missing",
            Refusal::NotAgreed => "the checker watches the process, whose probe has no condition",
            Refusal::TakenAlready => "the note was taken before",
        }
    }
}

impl fmt::Display for Refusal {
    fn fmt(&self, f: &mut fmt::Formatter<'_>) -> fmt::Result {
        f.write_str(self.text())
    }
}

impl Error for Refusal {}

/// A refused call, with the value that was passed to it.
#[derive(Clone, Copy, PartialEq, Eq)]
pub struct Refused<T> {
    /// Why the call was refused.
    pub refusal: Refusal,
    /// What was passed.
    pub value: T,
}

impl<T> fmt::Debug for Refused<T> {
    fn fmt(&self, f: &mut fmt::Formatter<'_>) -> fmt::Result {
        f.debug_struct("Refused")
            .field("refusal", &self.refusal)
            .finish_non_exhaustive()
    }
}

impl<T> fmt::Display for Refused<T> {
    fn fmt(&self, f: &mut fmt::Formatter<'_>) -> fmt::Result {
        self.refusal.fmt(f)
    }
}

impl<T> Error for Refused<T> {}

impl<T> From<Refused<T>> for Refusal {
    fn from(refused: Refused<T>) -> Refusal {
        refused.refusal
    }
}

/// The answers below this one say that a call was accepted.
const FIRST_REFUSAL: u32 = 16;

/// The answer of an accepted call, or why it was refused.
pub(crate) fn accepted(answer: u32) -> Result<u32, Refusal> {
    if answer < FIRST_REFUSAL {
        return Ok(answer);
    }
    Err(Refusal::of(answer).unwrap_or_else(|| unknown(answer)))
}

/// An answer that the header doesn't give to a call: the library is not the one that this crate was written for.
#[cold]
pub(crate) fn unknown(answer: u32) -> ! {
    panic!("libwullaphi answers {answer}, which this version of the crate does not know")
}

#[cfg(test)]
mod tests {
    use super::{Refusal, FIRST_REFUSAL};

    /// The answers that never come in Rust.
    const OTHERS: [&str; 3] = ["NoChecker", "InUse", "NoRoom"];

    /// `NO_SUCH` as `NoSuch`.
    fn camel(name: &str) -> String {
        let word = |word: &str| word[..1].to_string() + &word[1..].to_lowercase();
        name.split('_').map(word).collect()
    }

    /// The numbers and names of the refusals in the header.
    fn numbered() -> Vec<(u32, String)> {
        let answer = |line: &str| {
            let mut words = line.strip_prefix("#define WCP_")?.split_whitespace();
            let name = words.next()?;
            let number: u32 = words.next()?.parse().ok()?;
            (number >= FIRST_REFUSAL
                && !matches!(name, "MAX_PROCESSES" | "MAX_QUESTIONS" | "VERSION"))
            .then(|| (number, camel(name)))
        };
        include_str!("../../wullaphi.h")
            .lines()
            .filter_map(answer)
            .collect()
    }

    #[test]
    fn each_refusal_of_the_header_has_its_name() {
        let mut known = 0;
        for (number, name) in numbered() {
            match Refusal::of(number) {
                Some(refusal) => {
                    assert_eq!(format!("{refusal:?}"), name);
                    known += 1;
                }
                None => assert!(OTHERS.contains(&name.as_str()), "{name}"),
            }
        }
        assert_eq!(known, (0..1000).filter_map(Refusal::of).count());
        assert_eq!(known, 19);
    }

    #[test]
    fn no_two_refusals_have_the_same_text() {
        let all: Vec<Refusal> = (0..1000).filter_map(Refusal::of).collect();
        for (place, refusal) in all.iter().enumerate() {
            assert!(all[..place]
                .iter()
                .all(|other| other.to_string() != refusal.to_string()));
        }
    }
}
