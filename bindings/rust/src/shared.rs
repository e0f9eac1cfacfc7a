use crate::checker::{Checker, Report};
use crate::error::Refusal;
use crate::meeting::Meeting;
use crate::note::Note;
use crate::party::Party;
use crate::probe::Probe;
use crate::watch::WatchError;
use crate::watch_report::{Member, WatchReport};
use std::collections::{BTreeMap, HashMap};
use std::fmt;
use std::panic::Location;
use std::sync::atomic::{AtomicU64, Ordering};
use std::sync::{Arc, Mutex, MutexGuard, PoisonError, Weak};
use std::thread;

static NEXT_NUMBER: AtomicU64 = AtomicU64::new(1);

/// The watches that are open, for threads that are in none.
static OPEN: Mutex<Vec<Weak<Shared>>> = Mutex::new(Vec::new());

/// What the threads of a watch share.
pub(crate) struct Shared {
    number: u64,
    names: Vec<String>,
    questions: Vec<Vec<u32>>,
    checker: Mutex<Checker>,
    known: Mutex<Known>,
}

/// A place of the program where a condition holds.
#[derive(Clone)]
pub(crate) struct Place {
    label: Arc<str>,
    /// The label with the file and the line.
    told: Arc<str>,
}

/// What is known of the processes and their places.
#[derive(Default)]
struct Known {
    begun: Vec<bool>,
    ended: Vec<bool>,
    meeting: Option<Meeting>,
    places: Vec<Place>,
    tags: HashMap<(&'static str, &'static str, u32), u64>,
    strays: BTreeMap<String, u64>,
    refusal: Option<Refusal>,
}

impl Shared {
    /// A watch with a number of its own, of which threads that are in none know too.
    pub(crate) fn open(
        names: Vec<String>,
        questions: Vec<Vec<u32>>,
    ) -> Result<Arc<Shared>, Refusal> {
        let number = NEXT_NUMBER.fetch_add(1, Ordering::Relaxed);
        let checker = Checker::new_sets(number, names.len() as u32, &questions)?;
        let known = Known {
            begun: vec![false; names.len()],
            ended: vec![false; names.len()],
            ..Known::default()
        };
        let shared = Arc::new(Shared {
            number,
            names,
            questions,
            checker: Mutex::new(checker),
            known: Mutex::new(known),
        });
        locked(&OPEN).push(Arc::downgrade(&shared));
        Ok(shared)
    }

    /// Each question: the names of its processes, and what is known.
    pub(crate) fn reports(&self) -> Vec<(Vec<String>, WatchReport)> {
        let name_of = |process: &u32| self.names[*process as usize].clone();
        let questions = self.questions.iter().zip(0..);
        questions
            .map(|(it, place)| (it.iter().map(name_of).collect(), self.report(place)))
            .collect()
    }

    pub(crate) fn number(&self) -> u64 {
        self.number
    }

    /// The process of this name, which begins, if the watch has one.
    pub(crate) fn begin(self: &Arc<Self>, name: &str) -> Result<Option<Party>, WatchError> {
        let process = match self.names.iter().position(|it| it == name) {
            Some(process) => process,
            None => return Ok(None),
        };
        let probe = Probe::new(self.number, process as u32, self.names.len() as u32)?;
        let mut known = locked(&self.known);
        if std::mem::replace(&mut known.begun[process], true) {
            return Err(WatchError::Begun(name.to_string()));
        }
        let seat = known.meeting.as_ref().and_then(|it| it.seat(name).ok());
        Ok(Some(Party::process(Arc::clone(self), probe, seat)))
    }

    /// The processes are to meet there. None of them has begun.
    pub(crate) fn meet(&self, meeting: &Meeting) -> Result<(), WatchError> {
        let mut known = locked(&self.known);
        if let Some(name) = meeting.names().iter().find(|it| !self.names.contains(it)) {
            return Err(WatchError::NoProcess(name.to_string()));
        }
        if let Some(process) = known.begun.iter().position(|it| *it) {
            return Err(WatchError::Begun(self.names[process].clone()));
        }
        if known.meeting.is_some() || !meeting.begin() {
            return Err(WatchError::Meeting);
        }
        known.meeting = Some(meeting.clone());
        Ok(())
    }

    /// The process of this probe has ended.
    pub(crate) fn end(&self, probe: &mut Probe) {
        match probe.close() {
            Ok(note) => self.take(&note),
            Err(refusal) => self.refuse(refusal),
        }
        locked(&self.known).ended[probe.process() as usize] = true;
    }

    /// Takes a note of a process. One that is refused leaves the report undecided.
    pub(crate) fn take(&self, note: &Note) {
        if let Err(refusal) = locked(&self.checker).take(note) {
            self.refuse(refusal);
        }
    }

    fn refuse(&self, refusal: Refusal) {
        locked(&self.known).refusal.get_or_insert(refusal);
    }

    /// The tag of a place: from 1, since 0 is none.
    pub(crate) fn tag(&self, label: &'static str, place: &'static Location<'static>) -> u64 {
        let mut known = locked(&self.known);
        let next = known.places.len() as u64 + 1;
        let key = (label, place.file(), place.line());
        let tag = *known.tags.entry(key).or_insert(next);
        if tag == next {
            let file = place.file().rsplit(['/', '\\']).next().unwrap_or_default();
            known.places.push(Place {
                label: label.into(),
                told: format!("{label} ({file}:{})", place.line()).into(),
            });
        }
        tag
    }

    /// The place with this tag.
    pub(crate) fn place(&self, tag: u64) -> Place {
        locked(&self.known).place(tag)
    }

    /// What is known of a question.
    pub(crate) fn report(&self, question: u32) -> WatchReport {
        let mut checker = locked(&self.checker);
        let report = checker.report_of(question);
        let known = locked(&self.known);
        match report {
            Ok(Report::Found(cut)) => {
                let mut members = Vec::new();
                for (process, interval) in cut.iter().enumerate() {
                    if let Some(interval) = *interval {
                        let tag = checker.tag_of(question, process as u32).unwrap_or(0);
                        members.push(Member {
                            process: self.names[process].clone(),
                            place: known.place(tag).to_string(),
                            interval,
                        });
                    }
                }
                WatchReport::Found(members)
            }
            Ok(Report::Nothing) if known.strays.is_empty() => WatchReport::Nothing,
            _ => WatchReport::Undecided(known.why(&self.names)),
        }
    }
}

impl Place {
    /// A place that has only a name.
    pub(crate) fn named(name: &str) -> Place {
        Place {
            label: name.into(),
            told: name.into(),
        }
    }

    /// Whether this is its label, or its label with the file and the line.
    pub(crate) fn is_called(&self, name: &str) -> bool {
        name == &*self.label || name == &*self.told
    }
}

impl fmt::Display for Place {
    fn fmt(&self, f: &mut fmt::Formatter<'_>) -> fmt::Result {
        f.write_str(&self.told)
    }
}

impl Known {
    /// The place with this tag; 0 is none.
    fn place(&self, tag: u64) -> Place {
        let place = self.places.get((tag as usize).wrapping_sub(1));
        place.cloned().unwrap_or_else(|| Place::named(""))
    }

    /// Why nothing is decided.
    fn why(&self, names: &[String]) -> String {
        let mut reasons = Vec::new();
        let named = |wanted: &dyn Fn(usize) -> bool| {
            let chosen: Vec<&str> = (0..names.len())
                .filter(|it| wanted(*it))
                .map(|it| names[it].as_str())
                .collect();
            chosen.join(", ")
        };
        let absent = named(&|process| !self.begun[process]);
        if !absent.is_empty() {
            reasons.push(format!("{absent} never began"));
        }
        let running = named(&|process| self.begun[process] && !self.ended[process]);
        if !running.is_empty() {
            reasons.push(format!("{running} had not ended"));
        }
        for (name, count) in &self.strays {
            reasons.push(format!(
                "{name} held {count} times, but is no process of the watch"
            ));
        }
        if let Some(refusal) = self.refusal {
            reasons.push(format!("a note was refused: {refusal}"));
        }
        reasons.join("; ")
    }
}

/// A thread holds a condition, but is no process: of this watch, or of any that is open.
pub(crate) fn note_stray(watch: Option<Arc<Shared>>) {
    let thread = thread::current();
    let name = thread.name().unwrap_or("a thread without a name");
    let note = |shared: &Shared| {
        *locked(&shared.known)
            .strays
            .entry(name.to_string())
            .or_insert(0) += 1;
    };
    let watches: Vec<Arc<Shared>> = match watch {
        Some(shared) => vec![shared],
        None => locked(&OPEN).iter().filter_map(Weak::upgrade).collect(),
    };
    watches.iter().for_each(|shared| note(shared));
}

/// No thread panics while it has one of these locks.
fn locked<T>(mutex: &Mutex<T>) -> MutexGuard<'_, T> {
    mutex.lock().unwrap_or_else(PoisonError::into_inner)
}

impl Drop for Shared {
    fn drop(&mut self) {
        locked(&OPEN).retain(|it| it.strong_count() > 0);
    }
}

impl fmt::Debug for Shared {
    fn fmt(&self, f: &mut fmt::Formatter<'_>) -> fmt::Result {
        f.debug_struct("Watch")
            .field("number", &self.number)
            .field("names", &self.names)
            .finish_non_exhaustive()
    }
}
