use crate::raw;
use std::fmt;

/// Why a call was refused. The map is then as it was before.
#[derive(Clone, Copy, Debug, PartialEq, Eq)]
pub enum Refusal {
    /// No memory was found.
    OutOfMemory,
    /// The key has more than 3,817,748,704 bytes.
    KeyTooLong,
    /// Some key is not below the next one: of `from_ascending` alone.
    NotAscending,
}

impl fmt::Display for Refusal {
    fn fmt(&self, out: &mut fmt::Formatter<'_>) -> fmt::Result {
        out.write_str(match self {
            Refusal::OutOfMemory => "out of memory",
            Refusal::KeyTooLong => "the key is too long",
            Refusal::NotAscending => "the keys do not ascend",
        })
    }
}

impl std::error::Error for Refusal {}

/// Whether a call that is never refused found an entry, by its status.
#[inline]
pub(crate) fn is_some(status: u32) -> bool {
    debug_assert!(status <= raw::SOME, "status {status}");
    status == raw::SOME
}

/// The same of a call that may be refused.
pub(crate) fn found(status: u32) -> Result<bool, Refusal> {
    match status {
        raw::NONE => Ok(false),
        raw::SOME => Ok(true),
        raw::NO_MEMORY => Err(Refusal::OutOfMemory),
        raw::KEY_TOO_LONG => Err(Refusal::KeyTooLong),
        raw::NOT_ASCENDING => Err(Refusal::NotAscending),
        _ => unreachable!("status {status}"),
    }
}

/// The result of a call that is not refused, else a panic.
#[track_caller]
pub(crate) fn granted<T>(result: Result<T, Refusal>) -> T {
    match result {
        Ok(granted) => granted,
        Err(refusal) => panic!("verified-art: {refusal}"),
    }
}
