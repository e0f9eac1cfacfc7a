use std::fmt;

/// What a watch tells. At the end of its threads it is final.
#[derive(Clone, Debug, PartialEq, Eq)]
pub enum WatchReport {
    /// All conditions could have held at once, here.
    Found(Vec<Member>),
    /// In no order of the events that fits this run did all hold at once.
    Nothing,
    /// Neither is known, for this reason.
    Undecided(String),
}

/// A process in the moment that was found.
#[derive(Clone, Debug, PartialEq, Eq)]
pub struct Member {
    /// The name of the process.
    pub process: String,
    /// The label of its condition, with the file and the line of [`holding`](crate::holding).
    pub place: String,
    /// How many events it had made by then.
    pub interval: u32,
}

impl fmt::Display for WatchReport {
    fn fmt(&self, f: &mut fmt::Formatter<'_>) -> fmt::Result {
        match self {
            WatchReport::Nothing => f.write_str("none"),
            WatchReport::Undecided(why) => write!(f, "undecided: {why}"),
            WatchReport::Found(members) => {
                f.write_str("found: ")?;
                for (place, member) in members.iter().enumerate() {
                    let comma = if place == 0 { "" } else { ", " };
                    write!(f, "{comma}{} at {}", member.process, member.place)?;
                }
                Ok(())
            }
        }
    }
}
