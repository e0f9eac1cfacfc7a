use crate::watch_report::Member;
use std::fmt;

/// How a [`Meeting`](crate::Meeting) went. As a text it is one line: where all met, or who never came, and who gave up
/// while who was missing.
#[derive(Clone, Debug, PartialEq, Eq)]
pub struct Account {
    /// Where each stood as all met, if they have.
    pub met: Option<Vec<Member>>,
    /// How often each member came to its place until they met.
    pub came: Vec<(String, u64)>,
    /// Who gave up, who was missing then, and how often that was so.
    pub missed: Vec<(String, String, u64)>,
}

impl fmt::Display for Account {
    fn fmt(&self, f: &mut fmt::Formatter<'_>) -> fmt::Result {
        if let Some(members) = &self.met {
            let stood = |member: &Member| match member.place.as_str() {
                "" => format!("{} in interval {}", member.process, member.interval),
                place => format!("{} at {place}", member.process),
            };
            let all: Vec<String> = members.iter().map(stood).collect();
            return write!(f, "met: {}", all.join(", "));
        }
        let absent = self.came.iter().filter(|(_, times)| *times == 0);
        let mut reasons: Vec<String> = absent
            .map(|(name, _)| format!("{name} never came to its place"))
            .collect();
        for (name, other, times) in &self.missed {
            let times = format!("{times} time{}", if *times == 1 { "" } else { "s" });
            reasons.push(format!("{name} gave up {times} while {other} was missing"));
        }
        match reasons.as_slice() {
            [] => f.write_str("not met"),
            _ => write!(f, "not met: {}", reasons.join("; ")),
        }
    }
}
