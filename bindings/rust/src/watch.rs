use crate::error::Refusal;
use crate::meeting::Meeting;
use crate::party::{self, Marks, Party};
use crate::shared::Shared;
use crate::watch_report::WatchReport;
use std::fmt;
use std::marker::PhantomData;
use std::sync::Arc;

/// A watch over threads of this program: which of them could have held a condition at once.
///
/// Its processes are the threads that [`thread::Builder`](crate::thread::Builder) starts under one of its names, within
/// [`enter`](Watch::enter), and threads that become one by [`process`](Watch::process). What orders them are the things of
/// [`sync`](crate::sync) and [`thread`](crate::thread), which replace those of the standard library. What the program
/// adds is [`holding`](crate::holding).
///
/// ```
/// use std::sync::Arc;
/// use wullaphi::{holding, sync::Mutex, thread, Watch, WatchReport};
///
/// # fn main() -> Result<(), Box<dyn std::error::Error>> {
/// let watch = Watch::new(&["ada", "ben"])?;
/// let entered = watch.enter();
/// let lock = Arc::new(Mutex::new(0));
/// let mut threads = Vec::new();
/// for name in ["ada", "ben"] {
///     let lock = Arc::clone(&lock);
///     threads.push(thread::Builder::new().name(name.into()).spawn(move || {
///         let mut count = lock.lock().unwrap();
///         let _held = holding("counts");
///         *count += 1;
///     })?);
/// }
/// for thread in threads {
///     thread.join().unwrap();
/// }
/// drop(entered);
/// assert_eq!(watch.report(), WatchReport::Nothing); // the lock keeps them apart
/// # Ok(())
/// # }
/// ```
///
/// [`WatchReport::Nothing`] is of the orders of this run: another run may get its locks in another order.
#[derive(Debug)]
pub struct Watch {
    shared: Arc<Shared>,
}

/// Why a watch, or a process of one, isn't made.
#[derive(Clone, Debug, PartialEq, Eq)]
pub enum WatchError {
    /// There is no name, or there are more than 16, or a name stands twice, or a question has none or another one.
    Names,
    /// The watch has no process of this name.
    NoProcess(String),
    /// The process of this name has begun already. A name is used once.
    Begun(String),
    /// There is no memory for the checker.
    NoMemory,
    /// A meeting has no member, or more than 16, or a name stands twice.
    Members,
    /// The watch has a meeting already, or the meeting was used before. A meeting is of one run.
    Meeting,
}

/// The calling thread is in a watch while this lives.
#[derive(Debug)]
#[must_use = "the thread is in the watch until this is dropped"]
pub struct Entered {
    before: Option<Option<Party>>,
    of_this_thread: PhantomData<*const ()>,
}

impl Watch {
    /// A watch of the processes with these names, 1 to 16: could all have held at once?
    ///
    /// # Errors
    ///
    /// [`WatchError::Names`], [`WatchError::NoMemory`]
    pub fn new(names: &[&str]) -> Result<Watch, WatchError> {
        Watch::new_sets(names, &[names])
    }

    /// The same, with a question for each pair of the processes: (0, 1), (0, 2) and so on, then (1, 2).
    ///
    /// # Errors
    ///
    /// [`WatchError::Names`], [`WatchError::NoMemory`]
    pub fn new_pairs(names: &[&str]) -> Result<Watch, WatchError> {
        let mut pairs = Vec::new();
        for (place, first) in names.iter().enumerate() {
            pairs.extend(names[place + 1..].iter().map(|second| [*first, *second]));
        }
        Watch::new_sets(names, &pairs)
    }

    /// The same, with a question for each of these sets of names.
    ///
    /// # Errors
    ///
    /// [`WatchError::Names`], [`WatchError::NoMemory`]
    pub fn new_sets<'a, S: AsRef<[&'a str]>>(
        names: &[&str],
        sets: &[S],
    ) -> Result<Watch, WatchError> {
        if (1..names.len()).any(|place| names[..place].contains(&names[place])) {
            return Err(WatchError::Names);
        }
        let number_of = |name: &&str| names.iter().position(|it| it == name).map(|it| it as u32);
        let questions: Option<Vec<Vec<u32>>> = sets
            .iter()
            .map(|set| set.as_ref().iter().map(number_of).collect())
            .collect();
        let questions = questions.ok_or(WatchError::Names)?;
        let names = names.iter().map(|name| name.to_string()).collect();
        let shared = Shared::open(names, questions)?;
        Ok(Watch { shared })
    }

    /// The processes of the watch, none of which has begun, are to meet there.
    ///
    /// # Errors
    ///
    /// [`WatchError::NoProcess`]: a member is no process of the watch. [`WatchError::Begun`], [`WatchError::Meeting`]
    pub fn meet(&self, meeting: &Meeting) -> Result<(), WatchError> {
        self.shared.meet(meeting)
    }

    /// The calling thread is in the watch until the answer is dropped, and so is each thread that it starts meanwhile by
    /// [`thread`](crate::thread). It is no process, and passes on the order that it has taken.
    pub fn enter(&self) -> Entered {
        Entered::new(Party::outsider(Arc::clone(&self.shared)))
    }

    /// The calling thread is this process of the watch until the answer is dropped: for a thread of a pool, or the one
    /// that made the watch.
    ///
    /// # Errors
    ///
    /// [`WatchError::NoProcess`], [`WatchError::Begun`]
    pub fn process(&self, name: &str) -> Result<Entered, WatchError> {
        match self.shared.begin(name)? {
            Some(party) => Ok(Entered::new(party)),
            None => Err(WatchError::NoProcess(name.to_string())),
        }
    }

    /// What the watch tells of its first question.
    pub fn report(&self) -> WatchReport {
        self.shared.report(0)
    }

    /// What it tells of each question, with the names of its processes.
    pub fn reports(&self) -> Vec<(Vec<String>, WatchReport)> {
        self.shared.reports()
    }
}

impl Entered {
    fn new(mut party: Party) -> Entered {
        party::meet();
        party.take(&party::left());
        Entered {
            before: Some(party::replace(Some(party))),
            of_this_thread: PhantomData,
        }
    }
}

impl Drop for Entered {
    fn drop(&mut self) {
        let marks = match party::replace(None) {
            Some(party) => party.end(),
            None => Marks::None,
        };
        party::replace(self.before.take().flatten());
        party::take(&marks);
    }
}

impl fmt::Debug for Party {
    fn fmt(&self, f: &mut fmt::Formatter<'_>) -> fmt::Result {
        f.debug_struct("Party").finish_non_exhaustive()
    }
}

impl From<Refusal> for WatchError {
    fn from(refusal: Refusal) -> WatchError {
        match refusal {
            Refusal::NoMemory => WatchError::NoMemory,
            _ => WatchError::Names,
        }
    }
}

impl fmt::Display for WatchError {
    fn fmt(&self, f: &mut fmt::Formatter<'_>) -> fmt::Result {
        match self {
            WatchError::Names => f.write_str(
                "a watch takes 1 to 16 names, each once, and questions of at least one of them",
            ),
            WatchError::NoProcess(name) => write!(f, "no process of the watch is called {name}"),
            WatchError::Begun(name) => write!(f, "{name} is a process of the watch already"),
            WatchError::NoMemory => f.write_str("there is no memory for the watch"),
            WatchError::Members => f.write_str("a meeting takes 1 to 16 members, each once"),
            WatchError::Meeting => {
                f.write_str("the watch has a meeting, or the meeting was used before")
            }
        }
    }
}

impl std::error::Error for WatchError {}
