//! Who a thread is in a watch, and the marks by which one thing comes before another.
//!
//! Whatever lets something go leaves marks there, and whatever gets it takes them. A process of the watch leaves an open
//! stamp of its probe. Any other thread passes on what it has taken, so that an order isn't lost that goes through it.

use crate::meeting::Seat;
use crate::probe::Probe;
use crate::shared::Shared;
use crate::stamp::Stamp;
use std::cell::RefCell;
use std::sync::atomic::{AtomicU64, Ordering};
use std::sync::Arc;

static NEXT_CONDITION: AtomicU64 = AtomicU64::new(0);

/// An open stamp: of which watch it is, who left it, and how many events that process had made.
#[derive(Clone)]
pub(crate) struct Mark {
    watch: u64,
    sender: u32,
    count: u32,
    stamp: Stamp,
}

/// What was left somewhere.
#[derive(Clone, Default)]
pub(crate) enum Marks {
    #[default]
    None,
    /// By a process.
    One(Arc<Mark>),
    /// By another thread: all that it had taken, the last of each process.
    Many(Arc<[Mark]>),
}

impl Marks {
    fn as_slice(&self) -> &[Mark] {
        match self {
            Marks::None => &[],
            Marks::One(mark) => std::slice::from_ref(&**mark),
            Marks::Many(marks) => marks,
        }
    }
}

/// A thread of a watch.
pub(crate) enum Party {
    Process(Process),
    Outsider(Outsider),
}

/// A thread that is a process of the watch.
pub(crate) struct Process {
    shared: Arc<Shared>,
    probe: Probe,
    /// Its conditions that hold, the innermost last: the number of each, and the tag of its place.
    held: Vec<(u64, u64)>,
    /// The mark that it left last, if it has received nothing since and no condition has held.
    last: Option<Arc<Mark>>,
    /// Where it waits for others, if it is to meet them.
    seat: Option<Seat>,
}

/// A thread that is none, and passes on what it has taken.
pub(crate) struct Outsider {
    shared: Arc<Shared>,
    taken: MarkSet,
    left: Marks,
}

/// The last mark of each process of one watch.
#[derive(Default)]
pub(crate) struct MarkSet(Vec<Mark>);

thread_local! {
    static PARTY: RefCell<Option<Party>> = const { RefCell::new(None) };
}

/// Calls `then` with the calling thread's party, if it has one.
fn with_party<T>(then: impl FnOnce(&mut Party) -> T) -> Option<T> {
    let answer = PARTY.try_with(|party| party.borrow_mut().as_mut().map(then));
    answer.ok().flatten()
}

/// The calling thread is about to do something that its watch sees, and has no lock of this crate: its process waits
/// for others that it is to meet here.
pub(crate) fn meet() {
    with_party(|party| {
        if let Party::Process(process) = party {
            process.meet();
        }
    });
}

/// The calling thread leaves its marks here. Those of before stay where it has none.
pub(crate) fn leave(here: &mut Marks) {
    if let Some(marks) = with_party(Party::leave).flatten() {
        *here = marks;
    }
}

/// The marks that the calling thread leaves.
pub(crate) fn left() -> Marks {
    with_party(Party::leave).flatten().unwrap_or_default()
}

/// The calling thread got what carried these marks.
pub(crate) fn take(marks: &Marks) {
    if !matches!(marks, Marks::None) {
        with_party(|party| party.take(marks));
    }
}

/// Makes this the calling thread's party, and gives the one before.
pub(crate) fn replace(party: Option<Party>) -> Option<Party> {
    PARTY.with(|place| std::mem::replace(&mut *place.borrow_mut(), party))
}

/// The watch of the calling thread, if it is in one.
pub(crate) fn watch() -> Option<Arc<Shared>> {
    with_party(|party| Arc::clone(party.shared()))
}

/// The calling thread's condition holds from here on, with this tag of its watch. The answer is the number of the
/// condition, which no other has; nothing where the thread is no process.
pub(crate) fn hold(tag_in: impl FnOnce(&Shared) -> u64) -> Option<u64> {
    with_party(|party| match party {
        Party::Process(process) => {
            process.meet();
            let number = NEXT_CONDITION.fetch_add(1, Ordering::Relaxed);
            process.held.push((number, tag_in(&process.shared)));
            process.again();
            Some(number)
        }
        Party::Outsider(_) => None,
    })
    .flatten()
}

/// The condition with this number is over, if it is one of the calling thread's process.
pub(crate) fn let_go(number: u64) {
    with_party(|party| {
        if let Party::Process(process) = party {
            if process.held.iter().any(|it| it.0 == number) {
                process.meet();
                process.held.retain(|it| it.0 != number);
            }
        }
    });
}

impl Party {
    pub(crate) fn process(shared: Arc<Shared>, probe: Probe, seat: Option<Seat>) -> Party {
        Party::Process(Process {
            shared,
            probe,
            held: Vec::new(),
            last: None,
            seat,
        })
    }

    pub(crate) fn outsider(shared: Arc<Shared>) -> Party {
        Party::Outsider(Outsider {
            shared,
            taken: MarkSet::default(),
            left: Marks::None,
        })
    }

    fn shared(&self) -> &Arc<Shared> {
        match self {
            Party::Process(process) => &process.shared,
            Party::Outsider(outsider) => &outsider.shared,
        }
    }

    fn leave(&mut self) -> Option<Marks> {
        match self {
            Party::Process(process) => process.leave(),
            Party::Outsider(outsider) => match &outsider.left {
                Marks::None => None,
                marks => Some(marks.clone()),
            },
        }
    }

    pub(crate) fn take(&mut self, marks: &Marks) {
        match self {
            Party::Process(process) => process.take(marks),
            Party::Outsider(outsider) => outsider.take(marks),
        }
    }

    /// The thread ends its part: whoever joins it takes what this leaves.
    pub(crate) fn end(mut self) -> Marks {
        if let Party::Process(process) = &mut self {
            process.meet();
            process.held.clear();
        }
        let marks = self.leave().unwrap_or_default();
        if let Party::Process(mut process) = self {
            process.shared.end(&mut process.probe);
            if let Some(seat) = process.seat {
                seat.ended();
            }
        }
        marks
    }
}

impl Process {
    /// Where nothing was received since the last mark and no condition has held, that one says as much as a new one. At
    /// the end of its clock the process leaves none: order is lost then, and never made up.
    fn leave(&mut self) -> Option<Marks> {
        if let Some(mark) = &self.last {
            return Some(Marks::One(Arc::clone(mark)));
        }
        let stamp = self.probe.stamp_for_any().ok()?;
        let sender = self.probe.process();
        let mark = Arc::new(Mark {
            watch: self.shared.number(),
            sender,
            count: self.probe.clock()[sender as usize],
            stamp,
        });
        self.last = Some(Arc::clone(&mark));
        self.again();
        Some(Marks::One(mark))
    }

    fn take(&mut self, marks: &Marks) {
        for mark in marks.as_slice() {
            // Who knows that event of the sender knows all that the sender knew.
            let is_new = mark.watch == self.shared.number()
                && self.probe.clock()[mark.sender as usize] < mark.count;
            if is_new && self.probe.receive_stamp(&mark.stamp).is_ok() {
                self.last = None;
                self.again();
            }
        }
    }

    /// The end of an interval. Where one of the conditions that hold is where it is to meet others, it waits for them.
    fn meet(&self) {
        if let Some(seat) = &self.seat {
            let interval = self.probe.clock()[self.probe.process() as usize];
            let mut places = self.held.iter().rev().map(|it| self.shared.place(it.1));
            if let Some(place) = places.find(|place| seat.is_at(interval, place)) {
                seat.arrive(interval, &place);
            }
        }
    }

    /// A condition that holds goes on, whatever the process gets or lets go.
    fn again(&mut self) {
        if let Some((_, tag)) = self.held.last() {
            self.last = None;
            if let Ok(Some(note)) = self.probe.observe_tagged(true, *tag) {
                self.shared.take(&note);
            }
        }
    }
}

impl Outsider {
    fn take(&mut self, marks: &Marks) {
        let mut has_changed = false;
        for mark in marks.as_slice() {
            if mark.watch == self.shared.number() {
                has_changed |= self.taken.add(mark);
            }
        }
        if has_changed {
            self.left = self.taken.marks();
        }
    }
}

impl MarkSet {
    pub(crate) const fn new() -> MarkSet {
        MarkSet(Vec::new())
    }

    /// Adds these. Those of another watch go.
    pub(crate) fn add_all(&mut self, marks: &Marks) {
        for mark in marks.as_slice() {
            self.0.retain(|it| it.watch == mark.watch);
            self.add(mark);
        }
    }

    /// Adds a mark, unless a later one of its process is there. The answer says whether it was added.
    fn add(&mut self, mark: &Mark) -> bool {
        match self.0.iter_mut().find(|it| it.sender == mark.sender) {
            Some(kept) if kept.count >= mark.count => return false,
            Some(kept) => *kept = mark.clone(),
            None => self.0.push(mark.clone()),
        }
        true
    }

    pub(crate) fn marks(&self) -> Marks {
        match self.0.as_slice() {
            [] => Marks::None,
            marks => Marks::Many(marks.into()),
        }
    }

    pub(crate) fn clear(&mut self) {
        self.0.clear();
    }
}
