use crate::error::{accepted, unknown, Refusal};
use crate::ffi;

/// The room for the text at first, which is enough for a few processes.
const ROOM: usize = 256;

/// What `wcpwatch single` answers to a text.
#[derive(Clone, Debug, PartialEq, Eq)]
pub struct Single {
    /// Its status: 0 where a bad moment was found, 1 where none was, and 2 where the text has a fault.
    pub status: u32,
    /// What it prints; for a fault, the line that says which.
    pub text: Vec<u8>,
}

/// What `wcpwatch single` answers to this text. A text of more than 2,097,152 bytes has the fault `toolarge`.
///
/// ```
/// let answer = wullaphi::single(b"wcp 1\nprocs 1\np 0 true\n").unwrap();
/// assert_eq!(answer.status, 0);
/// assert!(answer.text.starts_with(b"found 0\n"));
/// ```
///
/// # Errors
///
/// [`Refusal::NoMemory`]
pub fn single(text: &[u8]) -> Result<Single, Refusal> {
    let mut out = vec![0; ROOM];
    loop {
        let (place, room, mut written) = (out.as_mut_ptr(), out.len(), 0);
        // SAFETY: the text is a slice, and `out` another, whose length is the room.
        let status =
            unsafe { ffi::wcp_single(text.as_ptr(), text.len(), place, room, &mut written) };
        let length = usize::try_from(written).map_err(|_| Refusal::NoMemory)?;
        if status != ffi::NO_ROOM {
            let status = accepted(status)?;
            out.truncate(length);
            return Ok(Single { status, text: out });
        }
        if length <= room {
            unknown(status);
        }
        out.resize(length, 0);
    }
}
