use crate::error::Refusal;
use crate::ffi;
use std::fmt;

/// The size of a stamp in bytes.
pub const STAMP_SIZE: usize = 88;

/// What goes along with a message that leaves this program: the sender's clock, for one receiver or for whichever
/// process takes the message.
///
/// [`Probe::stamp_for`](crate::Probe::stamp_for) and [`Probe::stamp_for_any`](crate::Probe::stamp_for_any) make it, and
/// [`Probe::receive_stamp`](crate::Probe::receive_stamp) receives it. Between threads use [`Stamped`], which holds the
/// stamp and the message together.
#[derive(Clone, PartialEq, Eq)]
pub struct Stamp {
    pub(crate) raw: ffi::Stamp,
}

impl Stamp {
    /// The process that sent the message.
    pub fn sender(&self) -> u32 {
        self.raw.from
    }

    /// The process that the message is sent to. `None`: an open message, which is for whichever process takes it.
    pub fn receiver(&self) -> Option<u32> {
        (self.raw.to != ffi::ANY_PROCESS).then_some(self.raw.to)
    }

    /// The stamp as bytes, for a machine of the same byte order.
    pub fn to_bytes(&self) -> [u8; STAMP_SIZE] {
        *self.raw.as_bytes()
    }

    /// The stamp that [`to_bytes`](Stamp::to_bytes) wrote.
    ///
    /// The library checks whether the bytes are laid out as a stamp. **That proves nothing about who made them**: a
    /// stamp can be forged or damaged into another one, and a probe that receives it takes over its clock.
    ///
    /// # Errors
    ///
    /// [`Refusal::NoStamp`]: the bytes are no stamp, or a damaged one.
    pub fn from_bytes(bytes: &[u8]) -> Result<Stamp, Refusal> {
        let bytes = bytes.try_into().map_err(|_| Refusal::NoStamp)?;
        let raw = ffi::Stamp::from_bytes(bytes);
        let mut probe = ffi::Probe::default();
        // SAFETY: both calls borrow a probe of this function's own, which is used for nothing else.
        let answer = unsafe {
            ffi::wcp_probe_init_with(&mut probe, 0, 0, 1, 1, 0);
            ffi::wcp_probe_receive(&mut probe, &raw)
        };
        if answer == ffi::NO_STAMP {
            return Err(Refusal::NoStamp);
        }
        Ok(Stamp { raw })
    }
}

impl fmt::Debug for Stamp {
    fn fmt(&self, f: &mut fmt::Formatter<'_>) -> fmt::Result {
        f.debug_struct("Stamp")
            .field("sender", &self.sender())
            .field("receiver", &self.receiver())
            .finish_non_exhaustive()
    }
}

/// A message with the stamp that its sender's probe made for its receiver.
///
/// Only [`Probe::stamp`](crate::Probe::stamp) and [`Probe::stamp_open`](crate::Probe::stamp_open) make one, and only
/// [`Probe::receive`](crate::Probe::receive) opens it. So the compiler refuses a message whose stamp is made up,
///
/// ```compile_fail
/// let message: wullaphi::Stamped<u32> = wullaphi::Stamped { stamp: todo!(), value: 5 };
/// ```
///
/// a message that is read without receiving it,
///
/// ```compile_fail
/// fn open(message: wullaphi::Stamped<u32>) -> u32 {
///     message.value
/// }
/// ```
///
/// and a message that is received twice:
///
/// ```compile_fail
/// fn copy(message: &wullaphi::Stamped<u32>) -> wullaphi::Stamped<u32> {
///     message.clone()
/// }
/// # fn main() {}
/// ```
#[must_use = "a message counts when its receiver's probe receives it"]
pub struct Stamped<T> {
    stamp: Stamp,
    value: T,
}

impl<T> Stamped<T> {
    pub(crate) fn new(stamp: Stamp, value: T) -> Stamped<T> {
        Stamped { stamp, value }
    }

    pub(crate) fn stamp(&self) -> &Stamp {
        &self.stamp
    }

    pub(crate) fn into_value(self) -> T {
        self.value
    }

    /// The process that sent the message.
    pub fn sender(&self) -> u32 {
        self.stamp.sender()
    }

    /// The process that the message is sent to. `None`: an open message, which is for whichever process takes it.
    pub fn receiver(&self) -> Option<u32> {
        self.stamp.receiver()
    }
}

impl<T> fmt::Debug for Stamped<T> {
    fn fmt(&self, f: &mut fmt::Formatter<'_>) -> fmt::Result {
        f.debug_struct("Stamped")
            .field("sender", &self.sender())
            .field("receiver", &self.receiver())
            .finish_non_exhaustive()
    }
}
