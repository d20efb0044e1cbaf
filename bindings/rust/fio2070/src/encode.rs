//! Messages, written to the front of a buffer. Each call returns the octets that it wrote, or why it wrote none.

use crate::raw::{self, Answer, Command, ConfigurationItem, Entry};
use crate::written::{front, Unwritten};

/// Writes a command from what `decode_command` and `command_items` give of it, and the octets after the type of types 56, 57
/// and 59: `Command { code: TYPE_POLL, block: 5, ..Command::default() }` is a poll for block 5. No command has a field that is
/// not of its type and not 0, or a count or a length of a body that is not the one passed.
pub fn encode_command<'a>(
    command: &Command,
    items: &[ConfigurationItem],
    body: &[u8],
    out: &'a mut [u8],
) -> Result<&'a [u8], Unwritten> {
    // SAFETY: each slice is initialised memory of its length, and `out` is borrowed by this call alone.
    front(out, |out, room| unsafe {
        raw::fio2070_encode_command(
            command,
            items.as_ptr(),
            items.len(),
            body.as_ptr(),
            body.len(),
            out,
            room,
        )
    })
}

/// Writes an answer from what `decode_answer` and `block_entries` give of it, and the octets after the type of types 183, 184,
/// 185, 187 and 188, as `encode_command` does.
pub fn encode_answer<'a>(
    answer: &Answer,
    entries: &[Entry],
    body: &[u8],
    out: &'a mut [u8],
) -> Result<&'a [u8], Unwritten> {
    // SAFETY: as in `encode_command`.
    front(out, |out, room| unsafe {
        raw::fio2070_encode_answer(
            answer,
            entries.as_ptr(),
            entries.len(),
            body.as_ptr(),
            body.len(),
            out,
            room,
        )
    })
}
