use crate::error::{accepted, Refusal, Refused};
use crate::ffi;
use crate::note::Note;
use crate::stamp::{Stamp, Stamped};
use std::fmt;

/// The size of a probe in bytes.
pub const PROBE_SIZE: usize = 112;

/// The options of a probe.
#[derive(Clone, Copy, Debug, PartialEq, Eq)]
pub struct Options {
    /// Whether the process has a condition. A process without one only passes messages on, and its probe never gives
    /// a snapshot.
    pub watched: bool,
    /// Whether only sends reset the probe's flag, and receives don't: fewer notes, and the same reports. A probe that
    /// gives a snapshot puts its flag up, and gives no further one while it is up.
    pub flag_of_sends: bool,
}

impl Default for Options {
    /// The process has a condition, and each send and receive resets the flag.
    fn default() -> Options {
        Options {
            watched: true,
            flag_of_sends: false,
        }
    }
}

/// The probe of one process.
///
/// ```
/// use wullaphi::Probe;
///
/// # fn main() -> Result<(), wullaphi::Refusal> {
/// let mut ada = Probe::new(1, 0, 2)?;
/// let mut ben = Probe::new(1, 1, 2)?;
/// let note = ada.observe(true)?; // my condition holds; the note goes to the checker
/// assert!(note.is_some());
/// let message = ada.stamp(1, "over to you")?;
/// assert_eq!(ben.receive(message)?, "over to you");
/// # Ok(())
/// # }
/// ```
///
/// A process whose probe isn't closed may still tell something, so the report is then never
/// [`Nothing`](crate::Report::Nothing). Dropping a probe doesn't close it.
///
/// A probe can't be copied, since two copies would be one process that does two things at once:
///
/// ```compile_fail
/// fn copy(probe: &wullaphi::Probe) -> wullaphi::Probe {
///     probe.clone()
/// }
/// # fn main() {}
/// ```
// A probe is plain numbers, so `Send` and `Sync` are automatic. The header allows one call at a time on a probe, from
// any thread: each method that calls the library takes `&mut self`.
pub struct Probe {
    raw: ffi::Probe,
}

impl Probe {
    /// The probe of process `process` (0 and up) of `processes` (1 to [`MAX_PROCESSES`](crate::MAX_PROCESSES)) of the
    /// watch with the number `watch`, which tells its stamps from those of other watches.
    ///
    /// # Errors
    ///
    /// [`Refusal::OutOfRange`]
    pub fn new(watch: u64, process: u32, processes: u32) -> Result<Probe, Refusal> {
        Probe::new_with(watch, process, processes, Options::default())
    }

    /// The same, with options.
    ///
    /// # Errors
    ///
    /// [`Refusal::OutOfRange`]
    pub fn new_with(
        watch: u64,
        process: u32,
        processes: u32,
        options: Options,
    ) -> Result<Probe, Refusal> {
        let mut raw = ffi::Probe::default();
        let (watched, flag) = (options.watched.into(), options.flag_of_sends.into());
        // SAFETY: `raw` is borrowed for this call.
        accepted(unsafe {
            ffi::wcp_probe_init_with(&mut raw, watch, process, processes, watched, flag)
        })?;
        Ok(Probe { raw })
    }

    /// The process looks at its condition. Where the answer is a note, send it to the checker.
    ///
    /// # Errors
    ///
    /// [`Refusal::Closed`]
    pub fn observe(&mut self, holds: bool) -> Result<Option<Note>, Refusal> {
        self.observe_tagged(holds, 0)
    }

    /// The same, where `tag` goes with the note: any number that leads back to this moment, as a line of a log.
    ///
    /// # Errors
    ///
    /// [`Refusal::Closed`]
    pub fn observe_tagged(&mut self, holds: bool, tag: u64) -> Result<Option<Note>, Refusal> {
        // SAFETY: the probe is borrowed for this call.
        let answer = unsafe { ffi::wcp_probe_observe(&mut self.raw, holds.into()) };
        if accepted(answer)? == ffi::DONE_WITH_NOTE {
            return Ok(self.next_note(tag));
        }
        Ok(None)
    }

    /// The process sends `value` to process `to`. Send the message as you like, as long as `to` receives it by
    /// [`receive`](Probe::receive).
    ///
    /// # Errors
    ///
    /// Each gives the value back: [`Refusal::NoSuch`], [`Refusal::Closed`], [`Refusal::Backlog`],
    /// [`Refusal::ClockEnd`].
    pub fn stamp<T>(&mut self, to: u32, value: T) -> Result<Stamped<T>, Refused<T>> {
        match self.stamp_for(to) {
            Ok(stamp) => Ok(Stamped::new(stamp, value)),
            Err(refusal) => Err(Refused { refusal, value }),
        }
    }

    /// The process sends `value` as an open message: whichever process takes it, as from a work queue, receives it.
    ///
    /// # Errors
    ///
    /// Each gives the value back: [`Refusal::Closed`], [`Refusal::Backlog`], [`Refusal::ClockEnd`].
    pub fn stamp_open<T>(&mut self, value: T) -> Result<Stamped<T>, Refused<T>> {
        match self.stamp_for_any() {
            Ok(stamp) => Ok(Stamped::new(stamp, value)),
            Err(refusal) => Err(Refused { refusal, value }),
        }
    }

    /// The process receives a message, and has what was sent. Where that is an open message of its own, nothing has
    /// changed, since nothing happened between two processes.
    ///
    /// # Errors
    ///
    /// Each gives the message back: [`Refusal::Closed`], [`Refusal::Backlog`], [`Refusal::Stranger`],
    /// [`Refusal::NotMine`], [`Refusal::Ahead`], [`Refusal::ClockEnd`].
    pub fn receive<T>(&mut self, message: Stamped<T>) -> Result<T, Refused<Stamped<T>>> {
        match self.receive_stamp(message.stamp()) {
            Ok(()) => Ok(message.into_value()),
            Err(refusal) => Err(Refused {
                refusal,
                value: message,
            }),
        }
    }

    /// The process sends a message to process `to` of another program: the stamp goes along with it, as bytes.
    ///
    /// # Errors
    ///
    /// [`Refusal::NoSuch`], [`Refusal::Closed`], [`Refusal::Backlog`], [`Refusal::ClockEnd`]
    pub fn stamp_for(&mut self, to: u32) -> Result<Stamp, Refusal> {
        let mut raw = ffi::Stamp::default();
        // SAFETY: the probe and the stamp are borrowed for this call.
        accepted(unsafe { ffi::wcp_probe_stamp(&mut self.raw, to, &mut raw) })?;
        Ok(Stamp { raw })
    }

    /// The process sends an open message, which whichever process takes it receives: the stamp goes along with it, as
    /// bytes.
    ///
    /// # Errors
    ///
    /// [`Refusal::Closed`], [`Refusal::Backlog`], [`Refusal::ClockEnd`]
    pub fn stamp_for_any(&mut self) -> Result<Stamp, Refusal> {
        let mut raw = ffi::Stamp::default();
        // SAFETY: the probe and the stamp are borrowed for this call.
        accepted(unsafe { ffi::wcp_probe_stamp_open(&mut self.raw, &mut raw) })?;
        Ok(Stamp { raw })
    }

    /// The process receives the message that came with this stamp, as [`receive`](Probe::receive) does.
    ///
    /// # Errors
    ///
    /// [`Refusal::Closed`], [`Refusal::Backlog`], [`Refusal::Stranger`], [`Refusal::NotMine`], [`Refusal::Ahead`],
    /// [`Refusal::ClockEnd`]
    pub fn receive_stamp(&mut self, stamp: &Stamp) -> Result<(), Refusal> {
        // SAFETY: the probe and the stamp are borrowed for this call.
        accepted(unsafe { ffi::wcp_probe_receive(&mut self.raw, &stamp.raw) })?;
        Ok(())
    }

    /// The pending note with this tag, if there is one; it then is no longer pending. [`observe`](Probe::observe) and
    /// [`close`](Probe::close) give it already, so only a probe from a program in C can have one.
    pub fn next_note(&mut self, tag: u64) -> Option<Note> {
        let mut raw = ffi::Note::default();
        // SAFETY: the probe and the note are borrowed for this call.
        let answer = unsafe { ffi::wcp_probe_next(&mut self.raw, tag, &mut raw) };
        (answer == ffi::DONE_WITH_NOTE).then_some(Note { raw })
    }

    /// The process ends its part. The answer is its last note.
    ///
    /// # Errors
    ///
    /// [`Refusal::Closed`], [`Refusal::Backlog`]
    pub fn close(&mut self) -> Result<Note, Refusal> {
        self.close_tagged(0)
    }

    /// The same, where `tag` goes with the note.
    ///
    /// # Errors
    ///
    /// [`Refusal::Closed`], [`Refusal::Backlog`]
    pub fn close_tagged(&mut self, tag: u64) -> Result<Note, Refusal> {
        // SAFETY: the probe is borrowed for this call.
        let answer = accepted(unsafe { ffi::wcp_probe_close(&mut self.raw) })?;
        Ok(self
            .next_note(tag)
            .unwrap_or_else(|| crate::error::unknown(answer)))
    }

    /// The number of the watch.
    pub fn watch(&self) -> u64 {
        self.raw.watch
    }

    /// The number of this process.
    pub fn process(&self) -> u32 {
        self.raw.process
    }

    /// How many processes the watch has.
    pub fn processes(&self) -> u32 {
        self.raw.processes
    }

    /// The vector clock: how many events of each process this one knows of. Its own are its sends and receives.
    pub fn clock(&self) -> &[u32] {
        &self.raw.clock[..self.raw.processes as usize]
    }

    /// The probe as bytes, to go on with elsewhere, by [`from_bytes`](Probe::from_bytes). Go on with one copy only.
    pub fn into_bytes(self) -> [u8; PROBE_SIZE] {
        *self.raw.as_bytes()
    }

    /// The probe that [`into_bytes`](Probe::into_bytes) wrote, or a program in C.
    ///
    /// The library checks whether the bytes are laid out as a probe. That proves nothing about who made them.
    ///
    /// # Errors
    ///
    /// [`Refusal::NoProbe`]: the bytes are no probe, or a damaged one.
    pub fn from_bytes(bytes: &[u8]) -> Result<Probe, Refusal> {
        let bytes = bytes.try_into().map_err(|_| Refusal::NoProbe)?;
        let mut raw = ffi::Probe::from_bytes(bytes);
        // SAFETY: `raw` is borrowed for this call, which changes nothing where the condition doesn't hold.
        let answer = unsafe { ffi::wcp_probe_observe(&mut raw, 0) };
        if answer == ffi::NO_PROBE {
            return Err(Refusal::NoProbe);
        }
        Ok(Probe { raw })
    }
}

impl fmt::Debug for Probe {
    fn fmt(&self, f: &mut fmt::Formatter<'_>) -> fmt::Result {
        f.debug_struct("Probe")
            .field("watch", &self.watch())
            .field("process", &self.process())
            .field("clock", &self.clock())
            .finish_non_exhaustive()
    }
}
