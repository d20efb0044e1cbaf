//! What is written to the front of a slice of the caller, or why nothing is.

use crate::constants::NO_MESSAGE;
use core::fmt;

/// Why nothing was written. Nothing changed then.
#[derive(Clone, Copy, Debug, PartialEq, Eq)]
pub enum Unwritten {
    /// There are this many octets, entries or items to write, and the slice is shorter.
    NoRoom(usize),
    /// There is nothing such: no message has these fields, or the octets do not carry what is asked for.
    NoMessage,
}

impl fmt::Display for Unwritten {
    fn fmt(&self, formatter: &mut fmt::Formatter<'_>) -> fmt::Result {
        match self {
            Unwritten::NoRoom(needed) => write!(formatter, "no room: {needed} are needed"),
            Unwritten::NoMessage => formatter.write_str("there is no such message"),
        }
    }
}

#[cfg(feature = "std")]
impl std::error::Error for Unwritten {}

/// What a call wrote that returns how many there are to write.
pub(crate) fn front<T>(
    out: &mut [T],
    write: impl FnOnce(*mut T, usize) -> usize,
) -> Result<&[T], Unwritten> {
    match write(out.as_mut_ptr(), out.len()) {
        NO_MESSAGE => Err(Unwritten::NoMessage),
        count => out.get(..count).ok_or(Unwritten::NoRoom(count)),
    }
}

/// The text that a call wrote, which returns how many octets it has without the zero octet after it.
pub(crate) fn text(
    out: &mut [u8],
    write: impl FnOnce(*mut u8, usize) -> usize,
) -> Result<&str, Unwritten> {
    let count = write(out.as_mut_ptr(), out.len());
    if count >= out.len() {
        return Err(Unwritten::NoRoom(count + 1));
    }
    Ok(core::str::from_utf8(&out[..count]).unwrap_or(""))
}
