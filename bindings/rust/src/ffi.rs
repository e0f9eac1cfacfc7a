//! The structs and calls of `wullaphi.h`.
//!
//! A call takes references where the header wants a pointer to one struct: a reference is not NULL, is aligned, has
//! room for its type, and overlaps no other reference that may be written.

use std::ffi::c_void;
use std::mem::size_of;
use std::ptr;

pub const MAX_PROCESSES: usize = 16;

pub const DONE_WITH_NOTE: u32 = 1;
pub const FOUND: u32 = 2;
pub const NOTHING: u32 = 3;
pub const UNDECIDED: u32 = 4;
pub const NO_PROBE: u32 = 16;
pub const NO_STAMP: u32 = 17;
pub const NO_ROOM: u32 = 24;

/// The receiver that an open stamp names: whichever process takes the message.
pub const ANY_PROCESS: u32 = u32::MAX;

/// The kind of a note that is a snapshot; all others are last notes.
pub const SNAPSHOT: u32 = 1;

#[repr(C)]
#[derive(Clone, Copy, Default, PartialEq, Eq)]
pub struct Probe {
    pub magic: u32,
    pub processes: u32,
    pub process: u32,
    pub watched: u32,
    pub flag: u32,
    pub flag_up: u32,
    pub closed: u32,
    pub pending: u32,
    pub emitted: u32,
    pub reserved: u32,
    pub watch: u64,
    pub clock: [u32; MAX_PROCESSES],
}

#[repr(C)]
#[derive(Clone, Copy, Default, PartialEq, Eq)]
pub struct Stamp {
    pub magic: u32,
    pub processes: u32,
    pub from: u32,
    pub to: u32,
    pub watch: u64,
    pub clock: [u32; MAX_PROCESSES],
}

#[repr(C)]
#[derive(Clone, Copy, Default, PartialEq, Eq)]
pub struct Note {
    pub magic: u32,
    pub processes: u32,
    pub process: u32,
    pub kind: u32,
    pub number: u32,
    pub watched: u32,
    pub watch: u64,
    pub tag: u64,
    pub clock: [u32; MAX_PROCESSES],
}

#[repr(C)]
pub struct Checker {
    held_word: u32,
    reserved: u32,
    held: *mut c_void,
}

impl Checker {
    /// `WCP_CHECKER_NONE`.
    pub const NONE: Checker = Checker {
        held_word: 0,
        reserved: 0,
        held: ptr::null_mut(),
    };
}

/// A struct of plain numbers, without padding, as its bytes and from them.
macro_rules! plain {
    ($name:ident, $size:expr) => {
        const _: () = assert!(size_of::<$name>() == $size);

        impl $name {
            pub fn as_bytes(&self) -> &[u8; $size] {
                // SAFETY: the struct has this size, no padding, and no alignment below that of a byte.
                unsafe { &*(self as *const $name).cast() }
            }

            pub fn from_bytes(bytes: &[u8; $size]) -> $name {
                // SAFETY: the bytes have the struct's size, and any bytes are numbers.
                unsafe { ptr::read_unaligned(bytes.as_ptr().cast()) }
            }
        }
    };
}

plain!(Probe, 112);
plain!(Stamp, 88);
plain!(Note, 104);

extern "C" {
    pub fn wcp_version() -> u32;
    pub fn wcp_probe_init_with(
        probe: &mut Probe,
        watch: u64,
        process: u32,
        processes: u32,
        watched: u32,
        flag: u32,
    ) -> u32;
    pub fn wcp_probe_observe(probe: &mut Probe, holds: u32) -> u32;
    pub fn wcp_probe_stamp(probe: &mut Probe, to: u32, stamp: &mut Stamp) -> u32;
    pub fn wcp_probe_stamp_open(probe: &mut Probe, stamp: &mut Stamp) -> u32;
    pub fn wcp_probe_receive(probe: &mut Probe, stamp: &Stamp) -> u32;
    pub fn wcp_probe_next(probe: &mut Probe, tag: u64, note: &mut Note) -> u32;
    pub fn wcp_probe_close(probe: &mut Probe) -> u32;
    pub fn wcp_checker_new(checker: &mut Checker, watch: u64, processes: u32) -> u32;
    pub fn wcp_checker_new_with(
        checker: &mut Checker,
        watch: u64,
        processes: u32,
        watched: *const u32,
        count: usize,
    ) -> u32;
    pub fn wcp_checker_new_sets(
        checker: &mut Checker,
        watch: u64,
        processes: u32,
        masks: *const u32,
        count: usize,
    ) -> u32;
    pub fn wcp_checker_new_pairs(checker: &mut Checker, watch: u64, processes: u32) -> u32;
    pub fn wcp_checker_questions(checker: &mut Checker, count: &mut u64) -> u32;
    pub fn wcp_checker_take(checker: &mut Checker, note: &Note) -> u32;
    pub fn wcp_checker_lose(checker: &mut Checker, process: u32) -> u32;
    pub fn wcp_checker_report_of(checker: &mut Checker, question: u32) -> u32;
    pub fn wcp_checker_cut_of(
        checker: &mut Checker,
        question: u32,
        process: u32,
        interval: &mut u32,
    ) -> u32;
    pub fn wcp_checker_tag_of(
        checker: &mut Checker,
        question: u32,
        process: u32,
        tag: &mut u64,
    ) -> u32;
    pub fn wcp_checker_is_starved(checker: &mut Checker, question: u32, starved: &mut u32) -> u32;
    pub fn wcp_checker_taken(checker: &mut Checker, process: u32, count: &mut u64) -> u32;
    pub fn wcp_checker_save(
        checker: &mut Checker,
        bytes: *mut u8,
        room: usize,
        written: &mut u64,
    ) -> u32;
    pub fn wcp_checker_load(checker: &mut Checker, bytes: *const u8, length: usize) -> u32;
    pub fn wcp_checker_end(checker: &mut Checker) -> u32;
    pub fn wcp_single(
        text: *const u8,
        length: usize,
        out: *mut u8,
        room: usize,
        written: &mut u64,
    ) -> u32;
}
