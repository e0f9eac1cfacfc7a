use crate::checker::Checker;
use crate::error::Refusal;
use crate::ffi;
use std::fmt;

/// The size of a note in bytes.
pub const NOTE_SIZE: usize = 104;

/// What a process tells the checker: that its condition holds now, or that the process tells nothing more.
///
/// The notes of one probe go to the checker in the order in which the probe gives them.
#[must_use = "without this note the checker refuses those behind it"]
#[derive(Clone, PartialEq, Eq)]
pub struct Note {
    pub(crate) raw: ffi::Note,
}

impl Note {
    /// The number of the watch.
    pub fn watch(&self) -> u64 {
        self.raw.watch
    }

    /// The process that the note is of.
    pub fn process(&self) -> u32 {
        self.raw.process
    }

    /// How many snapshots of the process come before this note.
    pub fn number(&self) -> u32 {
        self.raw.number
    }

    /// Whether this is the last note of its process: that it is closed, or lost.
    pub fn is_last(&self) -> bool {
        self.raw.kind != ffi::SNAPSHOT
    }

    /// Whether the process has a condition.
    pub fn is_watched(&self) -> bool {
        self.raw.watched == 1
    }

    /// The vector clock of a snapshot: how many events of each process its state knows of. A last note has none.
    pub fn clock(&self) -> &[u32] {
        let processes = self.raw.processes as usize;
        &self.raw.clock[..if self.is_last() { 0 } else { processes }]
    }

    /// The number that the caller gave with it.
    pub fn tag(&self) -> u64 {
        self.raw.tag
    }

    /// The note as bytes, for a machine of the same byte order.
    pub fn as_bytes(&self) -> &[u8; NOTE_SIZE] {
        self.raw.as_bytes()
    }

    /// The note with these bytes, those of [`as_bytes`](Note::as_bytes).
    ///
    /// The library checks whether the bytes are laid out as a note; only a checker does that, so this call makes one
    /// of its own. **That proves nothing about who made the bytes**: a note can be forged or damaged into another one.
    ///
    /// # Errors
    ///
    /// [`Refusal::NoNote`]: the bytes are no note, or a damaged one. [`Refusal::NoMemory`]: there is no memory.
    pub fn from_bytes(bytes: &[u8]) -> Result<Note, Refusal> {
        let bytes = bytes.try_into().map_err(|_| Refusal::NoNote)?;
        let note = Note {
            raw: ffi::Note::from_bytes(bytes),
        };
        match Checker::new(0, 1)?.take(&note) {
            Err(refusal @ (Refusal::NoNote | Refusal::NoMemory)) => Err(refusal),
            _ => Ok(note), // taken, or refused as a note
        }
    }
}

impl fmt::Debug for Note {
    fn fmt(&self, f: &mut fmt::Formatter<'_>) -> fmt::Result {
        f.debug_struct("Note")
            .field("process", &self.process())
            .field("number", &self.number())
            .field("is_last", &self.is_last())
            .field("tag", &self.tag())
            .finish_non_exhaustive()
    }
}
