use crate::account::Account;
use crate::attendance::Attendance;
use crate::shared::Place;
use crate::watch::WatchError;
use crate::watch_report::Member;
use crate::MAX_PROCESSES;
use std::collections::BTreeMap;
use std::fmt;
use std::sync::{Arc, Condvar, Mutex, MutexGuard, PoisonError};
use std::time::{Duration, Instant};

/// Where a member of a [`Meeting`] waits for the others.
#[derive(Clone, Debug, PartialEq, Eq)]
pub enum At {
    /// In the interval with this number. Where locks are got in another order than before, it has another number.
    Interval(u32),
    /// Where a condition with this label holds; with the file and the line, as a report tells it, at that place alone.
    Place(String),
    /// Wherever its condition holds.
    Anywhere,
}

/// A meeting of processes: makes happen what a watch has found, in a second run.
///
/// [`Found`](crate::WatchReport::Found) is a moment that could have been. In a watch with a meeting, each process that
/// comes to its place in the moment waits there for the others, at most as long as the patience, each time that it
/// comes. If all are there at once they have met, and all go on: the moment has happened.
///
/// ```
/// use std::time::Duration;
/// use wullaphi::{holding, thread, Meeting, Watch, WatchReport};
///
/// fn run(watch: &Watch) -> std::io::Result<()> {
///     let _entered = watch.enter();
///     let mut threads = Vec::new();
///     for name in ["ada", "ben"] {
///         let work = || drop(holding("works"));
///         threads.push(thread::Builder::new().name(name.into()).spawn(work)?);
///     }
///     threads.into_iter().for_each(|thread| thread.join().unwrap());
///     Ok(())
/// }
///
/// # fn main() -> Result<(), Box<dyn std::error::Error>> {
/// let names = ["ada", "ben"];
/// let first = Watch::new(&names)?;
/// run(&first)?;
/// if let WatchReport::Found(moment) = first.report() {
///     let meeting = Meeting::at_places(&moment, Duration::from_secs(10))?;
///     let second = Watch::new(&names)?;
///     second.meet(&meeting)?;
///     run(&second)?;
///     assert!(meeting.account().met.is_some());
/// }
/// # Ok(())
/// # }
/// ```
///
/// A process waits at the end of its interval: before its next call of [`sync`](crate::sync) or
/// [`thread`](crate::thread), or the end of [`holding`](crate::holding), takes effect. What it does before may be what
/// the others need to come. It waits with the locks that the program has got, so others may wait for it as long.
///
/// That they have met is certain. That they haven't proves nothing: either the moment can't be, or the run didn't come
/// there. Then try [`at_intervals`](Meeting::at_intervals), [`at_places`](Meeting::at_places) and
/// [`anywhere`](Meeting::anywhere) in turn, each in a run or more.
#[derive(Clone)]
pub struct Meeting {
    room: Arc<Room>,
}

/// The room of a meeting.
struct Room {
    names: Vec<String>,
    places: Vec<At>,
    patience: Duration,
    state: Mutex<State>,
    changed: Condvar,
}

struct State {
    attendance: Attendance,
    /// Whether a process has come, or a watch has taken the meeting.
    has_begun: bool,
    came: Vec<u64>,
    /// Where each came last.
    last: Vec<Option<Member>>,
    /// How often one gave up, while another one was missing.
    missed: BTreeMap<(usize, usize), u64>,
}

/// What a process waits as: a member of a meeting.
pub(crate) struct Seat {
    meeting: Meeting,
    member: usize,
}

impl Meeting {
    /// A meeting of the processes with these names, 1 to 16, each with its place.
    ///
    /// # Errors
    ///
    /// [`WatchError::Members`]: there is no member, there are more than 16, or a name stands twice.
    pub fn new(members: &[(&str, At)], patience: Duration) -> Result<Meeting, WatchError> {
        let names: Vec<String> = members.iter().map(|it| it.0.to_string()).collect();
        let stands_twice = |place: usize| names[..place].contains(&names[place]);
        if names.is_empty()
            || names.len() > MAX_PROCESSES as usize
            || (1..names.len()).any(stands_twice)
        {
            return Err(WatchError::Members);
        }
        let state = State {
            attendance: Attendance::new(names.len()),
            has_begun: false,
            came: vec![0; names.len()],
            last: vec![None; names.len()],
            missed: BTreeMap::new(),
        };
        let room = Room {
            names,
            places: members.iter().map(|it| it.1.clone()).collect(),
            patience,
            state: Mutex::new(state),
            changed: Condvar::new(),
        };
        Ok(Meeting {
            room: Arc::new(room),
        })
    }

    /// A meeting of the processes of a moment, each in its interval.
    ///
    /// # Errors
    ///
    /// [`WatchError::Members`]
    pub fn at_intervals(moment: &[Member], patience: Duration) -> Result<Meeting, WatchError> {
        Meeting::of(moment, patience, |member| At::Interval(member.interval))
    }

    /// The same, each at its place in the program.
    ///
    /// # Errors
    ///
    /// [`WatchError::Members`]
    pub fn at_places(moment: &[Member], patience: Duration) -> Result<Meeting, WatchError> {
        Meeting::of(moment, patience, |member| At::Place(member.place.clone()))
    }

    /// The same, each wherever its condition holds.
    ///
    /// # Errors
    ///
    /// [`WatchError::Members`]
    pub fn anywhere(moment: &[Member], patience: Duration) -> Result<Meeting, WatchError> {
        Meeting::of(moment, patience, |_| At::Anywhere)
    }

    fn of(
        moment: &[Member],
        patience: Duration,
        at: impl Fn(&Member) -> At,
    ) -> Result<Meeting, WatchError> {
        let members: Vec<(&str, At)> = moment
            .iter()
            .map(|member| (member.process.as_str(), at(member)))
            .collect();
        Meeting::new(&members, patience)
    }

    /// A process with a [`Probe`](crate::Probe) of its own is about to make its next call, and its condition holds in
    /// this interval (`probe.clock()[process]`), at this place. If it is to come here, it waits. The answer is whether
    /// all have met. Processes of a [`Watch`](crate::Watch) come by themselves.
    ///
    /// ```
    /// use std::{thread, time::Duration};
    /// use wullaphi::{At, Meeting};
    ///
    /// # fn main() -> Result<(), wullaphi::WatchError> {
    /// let places = [("ada", At::Interval(2)), ("ben", At::Place("writes".into()))];
    /// let meeting = Meeting::new(&places, Duration::from_secs(10))?;
    /// let other = meeting.clone();
    /// let ben = thread::spawn(move || other.arrive("ben", 5, "writes"));
    /// assert_eq!(meeting.arrive("ada", 1, "reads"), Ok(false)); // another interval: doesn't wait
    /// assert_eq!(meeting.arrive("ada", 2, "reads"), Ok(true));
    /// assert_eq!(ben.join().unwrap(), Ok(true));
    /// assert_eq!(meeting.account().to_string(), "met: ada at reads, ben at writes");
    /// # Ok(())
    /// # }
    /// ```
    ///
    /// # Errors
    ///
    /// [`WatchError::NoProcess`]: no member has this name.
    pub fn arrive(&self, process: &str, interval: u32, place: &str) -> Result<bool, WatchError> {
        let seat = self.seat(process)?;
        let place = Place::named(place);
        if seat.is_at(interval, &place) {
            seat.arrive(interval, &place);
        }
        Ok(self.room.locked().attendance.has_met())
    }

    /// A process with a probe of its own has ended, and won't come any more: nobody goes on waiting for it.
    ///
    /// # Errors
    ///
    /// [`WatchError::NoProcess`]: no member has this name.
    pub fn ended(&self, process: &str) -> Result<(), WatchError> {
        self.seat(process)?.ended();
        Ok(())
    }

    /// How it went until now.
    pub fn account(&self) -> Account {
        let state = self.room.locked();
        let name = |member: usize| self.room.names[member].clone();
        let met = || state.last.iter().flatten().cloned().collect();
        Account {
            met: state.attendance.has_met().then(met),
            came: self
                .room
                .names
                .iter()
                .cloned()
                .zip(state.came.iter().copied())
                .collect(),
            missed: state
                .missed
                .iter()
                .map(|((member, other), times)| (name(*member), name(*other), *times))
                .collect(),
        }
    }

    /// The names of its members.
    pub(crate) fn names(&self) -> &[String] {
        &self.room.names
    }

    /// What the process of this name waits as.
    pub(crate) fn seat(&self, process: &str) -> Result<Seat, WatchError> {
        match self.room.names.iter().position(|it| it == process) {
            Some(member) => Ok(Seat {
                meeting: self.clone(),
                member,
            }),
            None => Err(WatchError::NoProcess(process.to_string())),
        }
    }

    /// A watch takes the meeting. The answer is whether it was free.
    pub(crate) fn begin(&self) -> bool {
        !std::mem::replace(&mut self.room.locked().has_begun, true)
    }
}

impl Seat {
    /// Whether the member waits here.
    pub(crate) fn is_at(&self, interval: u32, place: &Place) -> bool {
        match &self.meeting.room.places[self.member] {
            At::Interval(wanted) => *wanted == interval,
            At::Place(wanted) => place.is_called(wanted),
            At::Anywhere => true,
        }
    }

    /// The member is there, and waits for the others.
    pub(crate) fn arrive(&self, interval: u32, place: &Place) {
        let room = &self.meeting.room;
        let mut state = room.locked();
        state.has_begun = true;
        if state.attendance.has_met() || state.attendance.has_ended(self.member) {
            return;
        }
        state.came[self.member] += 1;
        state.last[self.member] = Some(Member {
            process: room.names[self.member].clone(),
            place: place.to_string(),
            interval,
        });
        state.attendance.arrive(self.member);
        if state.attendance.has_met() {
            room.changed.notify_all();
        } else {
            room.wait(state, self.member);
        }
    }

    /// The member won't come any more.
    pub(crate) fn ended(&self) {
        let mut state = self.meeting.room.locked();
        state.has_begun = true;
        state.attendance.end(self.member);
        self.meeting.room.changed.notify_all();
    }
}

impl Room {
    /// Waits for the others, and gives up where they don't come.
    fn wait(&self, mut state: MutexGuard<'_, State>, member: usize) {
        // A patience beyond what a clock can tell has no end.
        let until = Instant::now().checked_add(self.patience);
        while state.attendance.is_open() {
            state = match until.map(|until| until.checked_duration_since(Instant::now())) {
                None => unpoisoned(self.changed.wait(state)),
                Some(Some(left)) if !left.is_zero() => {
                    unpoisoned(self.changed.wait_timeout(state, left)).0
                }
                Some(_) => break,
            };
        }
        if state.attendance.give_up(member) {
            return;
        }
        let missing: Vec<usize> = state.attendance.missing().collect();
        for other in missing.into_iter().filter(|other| *other != member) {
            *state.missed.entry((member, other)).or_insert(0) += 1;
        }
    }

    fn locked(&self) -> MutexGuard<'_, State> {
        unpoisoned(self.state.lock())
    }
}

/// No thread panics with the lock of a meeting.
fn unpoisoned<G>(got: Result<G, PoisonError<G>>) -> G {
    got.unwrap_or_else(PoisonError::into_inner)
}

impl fmt::Debug for Meeting {
    fn fmt(&self, f: &mut fmt::Formatter<'_>) -> fmt::Result {
        f.debug_struct("Meeting")
            .field("names", &self.room.names)
            .field("places", &self.room.places)
            .field("patience", &self.room.patience)
            .finish_non_exhaustive()
    }
}
