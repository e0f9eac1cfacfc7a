use crate::error::{accepted, unknown, Refusal};
use crate::ffi;
use crate::note::Note;
use std::fmt;

/// What the notes that a checker has taken tell.
#[derive(Clone, Debug, PartialEq, Eq)]
pub enum Report {
    /// A cut was found, and stays. It has the interval of each process, `None` for one that is not watched: how many
    /// messages the process had sent and received by then.
    Found(Vec<Option<u32>>),
    /// All processes are closed, and there is no such cut.
    Nothing,
    /// Neither is known yet.
    Undecided,
}

/// Takes the notes of all processes, and finds the first moment at which all conditions could have held at once.
///
/// ```
/// use wullaphi::{Checker, Probe, Report};
///
/// # fn main() -> Result<(), wullaphi::Refusal> {
/// let mut checker = Checker::new(1, 2)?;
/// for process in 0..2 {
///     let mut probe = Probe::new(1, process, 2)?;
///     if let Some(note) = probe.observe(true)? {
///         checker.take(&note)?;
///     }
/// }
/// assert_eq!(checker.report(), Report::Found(vec![Some(0), Some(0)]));
/// # Ok(())
/// # }
/// ```
///
/// It takes the notes of one watch, and of a process that it watches only those of a probe with a condition. Give each
/// run a number of its own: the notes that an earlier run left in a queue are then refused.
///
/// One checker can ask several questions of the same notes, each of processes of its own. They are numbered from 0, and
/// each has a report of its own, as if it had a checker to itself. Where there is no memory for a note, a question that
/// needs some is starved: it stays [`Report::Undecided`], [`is_starved`](Checker::is_starved) says so, and the others
/// go on.
///
/// ```
/// use wullaphi::{Checker, Probe, Report};
///
/// # fn main() -> Result<(), wullaphi::Refusal> {
/// let mut checker = Checker::new_pairs(1, 3)?; // of (0, 1), (0, 2) and (1, 2)
/// for process in 0..2 {
///     if let Some(note) = Probe::new(1, process, 3)?.observe(true)? {
///         checker.take(&note)?;
///     }
/// }
/// assert_eq!(checker.report_of(0)?, Report::Found(vec![Some(0), Some(0), None]));
/// assert_eq!(checker.report_of(1)?, Report::Undecided);
///
/// let saved = checker.save()?; // to go on after a restart
/// assert_eq!(Checker::load(&saved)?.reports(), checker.reports());
/// # Ok(())
/// # }
/// ```
///
/// Dropping the checker frees its memory.
pub struct Checker {
    /// In a place of its own, since the header wants a handle that is never copied.
    handle: Box<ffi::Checker>,
    processes: u32,
}

// SAFETY: the handle holds plain data behind one pointer, which no other handle has, and the header allows one call
// at a time, from any thread. Each method that calls the library takes `&mut self`, and `drop` has the checker for
// itself.
unsafe impl Send for Checker {}

// SAFETY: no method that takes `&self` makes a call of the library or reads the handle.
unsafe impl Sync for Checker {}

impl Checker {
    /// A checker of the watch with the number `watch`, of `processes` processes (1 to
    /// [`MAX_PROCESSES`](crate::MAX_PROCESSES)), each of them watched.
    ///
    /// # Errors
    ///
    /// [`Refusal::OutOfRange`], [`Refusal::NoMemory`]
    pub fn new(watch: u64, processes: u32) -> Result<Checker, Refusal> {
        let mut handle = Box::new(ffi::Checker::NONE);
        // SAFETY: the handle is borrowed for this call, and holds none.
        accepted(unsafe { ffi::wcp_checker_new(&mut handle, watch, processes) })?;
        Ok(Checker { handle, processes })
    }

    /// The same, where only the processes with the numbers `watched` are watched, at least one. A number that comes
    /// twice counts once.
    ///
    /// # Errors
    ///
    /// [`Refusal::OutOfRange`], [`Refusal::NoMemory`]
    pub fn new_with(watch: u64, processes: u32, watched: &[u32]) -> Result<Checker, Refusal> {
        let mut handle = Box::new(ffi::Checker::NONE);
        // SAFETY: the handle is borrowed for this call, and holds none; the numbers are those of a slice.
        accepted(unsafe {
            ffi::wcp_checker_new_with(
                &mut handle,
                watch,
                processes,
                watched.as_ptr(),
                watched.len(),
            )
        })?;
        Ok(Checker { handle, processes })
    }

    /// The same, with a question for each of these sets of processes, 1 to 1,024 of them, each of one process at least.
    /// A number that comes twice in a set counts once.
    ///
    /// # Errors
    ///
    /// [`Refusal::OutOfRange`], [`Refusal::NoMemory`]
    pub fn new_sets<S: AsRef<[u32]>>(
        watch: u64,
        processes: u32,
        sets: &[S],
    ) -> Result<Checker, Refusal> {
        let masks: Option<Vec<u32>> = sets.iter().map(|set| mask(set.as_ref())).collect();
        let masks = masks.ok_or(Refusal::OutOfRange)?;
        let mut handle = Box::new(ffi::Checker::NONE);
        // SAFETY: the handle is borrowed for this call, and holds none; the masks are those of a vector.
        accepted(unsafe {
            ffi::wcp_checker_new_sets(&mut handle, watch, processes, masks.as_ptr(), masks.len())
        })?;
        Ok(Checker { handle, processes })
    }

    /// The same, with a question for each pair of the processes, of which there are two at least, in order: (0, 1),
    /// (0, 2) and so on, then (1, 2).
    ///
    /// # Errors
    ///
    /// [`Refusal::OutOfRange`], [`Refusal::NoMemory`]
    pub fn new_pairs(watch: u64, processes: u32) -> Result<Checker, Refusal> {
        let mut handle = Box::new(ffi::Checker::NONE);
        // SAFETY: the handle is borrowed for this call, and holds none.
        accepted(unsafe { ffi::wcp_checker_new_pairs(&mut handle, watch, processes) })?;
        Ok(Checker { handle, processes })
    }

    /// The checker that was saved in these bytes, by [`save`](Checker::save): it goes on as that one does.
    ///
    /// # Errors
    ///
    /// [`Refusal::NoSaved`], [`Refusal::NoMemory`]
    pub fn load(bytes: &[u8]) -> Result<Checker, Refusal> {
        let mut handle = Box::new(ffi::Checker::NONE);
        // SAFETY: the handle is borrowed for this call, and holds none; the bytes are those of a slice.
        accepted(unsafe { ffi::wcp_checker_load(&mut handle, bytes.as_ptr(), bytes.len()) })?;
        let mut checker = Checker {
            handle,
            processes: 0,
        };
        let all = 0..crate::MAX_PROCESSES;
        checker.processes = all.take_while(|p| checker.taken(*p).is_ok()).count() as u32;
        Ok(checker)
    }

    /// All that the checker holds, as bytes, from which [`load`](Checker::load) makes it again. They are the same on
    /// every machine.
    ///
    /// # Errors
    ///
    /// [`Refusal::NoMemory`]
    pub fn save(&mut self) -> Result<Vec<u8>, Refusal> {
        let mut bytes = Vec::new();
        loop {
            let mut written = 0;
            // SAFETY: the handle and the place of the number are borrowed for this call; the bytes are those of a
            // vector.
            let answer = unsafe {
                ffi::wcp_checker_save(
                    &mut self.handle,
                    bytes.as_mut_ptr(),
                    bytes.len(),
                    &mut written,
                )
            };
            if answer != ffi::NO_ROOM {
                accepted(answer)?;
                bytes.truncate(written as usize);
                return Ok(bytes);
            }
            bytes.resize(written as usize, 0);
        }
    }

    /// How many questions the checker has. They are numbered from 0.
    pub fn questions(&mut self) -> u32 {
        let mut count = 0;
        // SAFETY: the handle and the place of the answer are borrowed for this call.
        match unsafe { ffi::wcp_checker_questions(&mut self.handle, &mut count) } {
            0 => count as u32, // 1,024 at most
            answer => unknown(answer),
        }
    }

    /// Takes a note, the next of its process; those of different processes may come in any order.
    ///
    /// # Errors
    ///
    /// [`Refusal::OtherWatch`], [`Refusal::Stranger`], [`Refusal::NotAgreed`], [`Refusal::TakenAlready`],
    /// [`Refusal::Ended`], [`Refusal::OutOfTurn`], [`Refusal::NoMemory`]
    pub fn take(&mut self, note: &Note) -> Result<(), Refusal> {
        // SAFETY: the handle and the note are borrowed for this call.
        accepted(unsafe { ffi::wcp_checker_take(&mut self.handle, &note.raw) })?;
        Ok(())
    }

    /// A process is gone, and its last note won't come: no more of its notes are taken, and the report is never
    /// [`Report::Nothing`]. A cut of what it told may still be found.
    ///
    /// # Errors
    ///
    /// [`Refusal::OutOfRange`], [`Refusal::Ended`]
    pub fn lose(&mut self, process: u32) -> Result<(), Refusal> {
        // SAFETY: the handle is borrowed for this call.
        accepted(unsafe { ffi::wcp_checker_lose(&mut self.handle, process) })?;
        Ok(())
    }

    /// What the notes taken so far tell; of several questions, of the first one.
    pub fn report(&mut self) -> Report {
        self.report_of(0).unwrap_or_else(no_question)
    }

    /// What they tell of each question, in their order.
    pub fn reports(&mut self) -> Vec<Report> {
        let questions = 0..self.questions();
        questions
            .map(|question| self.report_of(question).unwrap_or_else(no_question))
            .collect()
    }

    /// What they tell of a question.
    ///
    /// # Errors
    ///
    /// [`Refusal::OutOfRange`]: there is no such question.
    pub fn report_of(&mut self, question: u32) -> Result<Report, Refusal> {
        // SAFETY: the handle is borrowed for this call.
        match unsafe { ffi::wcp_checker_report_of(&mut self.handle, question) } {
            ffi::FOUND => {
                let processes = 0..self.processes;
                let cut = processes.map(|process| self.cut_of(question, process).ok());
                Ok(Report::Found(cut.collect()))
            }
            ffi::NOTHING => Ok(Report::Nothing),
            ffi::UNDECIDED => Ok(Report::Undecided),
            answer => accepted(answer).map(|_| unknown(answer)),
        }
    }

    /// The interval of a process in the cut that was found: how many messages it had sent and received by then. Of
    /// several questions, this is the first one's.
    ///
    /// # Errors
    ///
    /// [`Refusal::NotInCut`]
    pub fn cut(&mut self, process: u32) -> Result<u32, Refusal> {
        self.cut_of(0, process)
    }

    /// The interval of a process in the cut that a question found.
    ///
    /// # Errors
    ///
    /// [`Refusal::OutOfRange`]: there is no such question. [`Refusal::NotInCut`]
    pub fn cut_of(&mut self, question: u32, process: u32) -> Result<u32, Refusal> {
        let mut interval = 0;
        // SAFETY: the handle and the place of the answer are borrowed for this call.
        accepted(unsafe {
            ffi::wcp_checker_cut_of(&mut self.handle, question, process, &mut interval)
        })?;
        Ok(interval)
    }

    /// The tag of a process's note in the cut that was found; 0 where it came without one. Of several questions, this
    /// is the first one's.
    ///
    /// # Errors
    ///
    /// [`Refusal::NotInCut`]
    pub fn tag(&mut self, process: u32) -> Result<u64, Refusal> {
        self.tag_of(0, process)
    }

    /// The tag of a process's note in the cut that a question found.
    ///
    /// # Errors
    ///
    /// [`Refusal::OutOfRange`]: there is no such question. [`Refusal::NotInCut`]
    pub fn tag_of(&mut self, question: u32, process: u32) -> Result<u64, Refusal> {
        let mut tag = 0;
        // SAFETY: the handle and the place of the answer are borrowed for this call.
        accepted(unsafe {
            ffi::wcp_checker_tag_of(&mut self.handle, question, process, &mut tag)
        })?;
        Ok(tag)
    }

    /// Whether a question of several was starved: there was no memory for a note that it needed. It stays
    /// [`Report::Undecided`], unless it had found a cut before.
    ///
    /// # Errors
    ///
    /// [`Refusal::OutOfRange`]: there is no such question.
    pub fn is_starved(&mut self, question: u32) -> Result<bool, Refusal> {
        let mut starved = 0;
        // SAFETY: the handle and the place of the answer are borrowed for this call.
        accepted(unsafe { ffi::wcp_checker_is_starved(&mut self.handle, question, &mut starved) })?;
        Ok(starved == 1)
    }

    /// How many snapshots of a process were taken.
    ///
    /// # Errors
    ///
    /// [`Refusal::OutOfRange`]
    pub fn taken(&mut self, process: u32) -> Result<u64, Refusal> {
        let mut count = 0;
        // SAFETY: the handle and the place of the answer are borrowed for this call.
        accepted(unsafe { ffi::wcp_checker_taken(&mut self.handle, process, &mut count) })?;
        Ok(count)
    }

    /// How many processes the checker has.
    pub fn processes(&self) -> u32 {
        self.processes
    }
}

impl Drop for Checker {
    fn drop(&mut self) {
        // SAFETY: the handle is borrowed for this call, holds a checker, and is used no more.
        unsafe { ffi::wcp_checker_end(&mut self.handle) };
    }
}

impl fmt::Debug for Checker {
    fn fmt(&self, f: &mut fmt::Formatter<'_>) -> fmt::Result {
        f.debug_struct("Checker")
            .field("processes", &self.processes)
            .finish_non_exhaustive()
    }
}

/// The mask of a set of processes, where each number has a bit.
fn mask(set: &[u32]) -> Option<u32> {
    set.iter()
        .try_fold(0, |mask, process| Some(mask | 1u32.checked_shl(*process)?))
}

/// A question of a checker is there.
#[cold]
fn no_question(refusal: Refusal) -> Report {
    panic!("libwullaphi refuses a question that is there: {refusal}")
}
