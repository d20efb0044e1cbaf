//! The wire: frames on a line, between flags, with octet stuffing or bit stuffing and a frame check (own profile).

use crate::constants::{WIRE_ANY, WIRE_DAMAGED, WIRE_MESSAGE, WIRE_NOTHING};
use crate::raw::{self, RawWire, RawWireBits};
use crate::written::Unwritten;
use crate::LONGEST_FRAME;
use core::mem::MaybeUninit;

// SAFETY of the calls below: slices are given with their lengths, all memory is initialised and, where it is written, borrowed
// by the call alone; the structs have numbers alone, of which all zeros are some, and are begun by `_start`.

/// Writes a frame as it goes over a line of octets, with both flags, to the front of `out`. The message has 1 to 773 octets;
/// there is room for it in twice as many and 10, so in `constants::WIRE_LONGEST` for each.
pub fn wire_frame<'a>(
    message: &[u8],
    address: u8,
    control: u8,
    out: &'a mut [u8],
) -> Result<&'a [u8], Unwritten> {
    if message.is_empty() || message.len() > LONGEST_FRAME {
        return Err(Unwritten::NoMessage);
    }
    let count = unsafe {
        raw::fio2070_wire_write(
            address,
            control,
            message.as_ptr(),
            message.len(),
            out.as_mut_ptr(),
            out.len(),
        )
    };
    match count {
        0 => Err(Unwritten::NoRoom(2 * message.len() + 10)),
        _ => Ok(&out[..count]),
    }
}

/// The frame check of octets, FCS-16 of RFC 1662 (CRC-16/X-25): a frame has its low octet first.
pub fn wire_check(octets: &[u8]) -> u16 {
    unsafe { raw::fio2070_wire_check(octets.as_ptr(), octets.len()) }
}

/// What a line says at a flag. A message is in the decoder: it is borrowed until the next octet is read.
#[derive(Clone, Copy, Debug, PartialEq, Eq)]
pub enum WireHeard<'a> {
    /// A frame with one's own address and control octet.
    Message {
        address: u8,
        control: u8,
        message: &'a [u8],
    },
    /// A frame of another, which is no damage.
    Other {
        address: u8,
        control: u8,
        message: &'a [u8],
    },
    /// What is between two flags and is no frame.
    Damaged,
}

/// What a call said, of which a frame of this length is at the front of `octets`.
fn heard(kind: u8, octets: &[u8], message_length: usize) -> Option<WireHeard<'_>> {
    let (address, control) = (octets[0], octets[1]);
    let message = &octets[2..2 + message_length];
    match kind {
        WIRE_NOTHING => None,
        WIRE_DAMAGED => Some(WireHeard::Damaged),
        WIRE_MESSAGE => Some(WireHeard::Message {
            address,
            control,
            message,
        }),
        _ => Some(WireHeard::Other {
            address,
            control,
            message,
        }),
    }
}

/// A number, or any.
fn setting(number: Option<u8>) -> u16 {
    number.map_or(WIRE_ANY, u16::from)
}

/// A decoder of a line of octets, such as a UART's. What comes before the first flag says nothing.
///
/// ```
/// use fio2070::{constants, wire_frame, Wire, WireHeard};
///
/// let mut out = [0; constants::WIRE_LONGEST];
/// let line = wire_frame(&[54, 5], 0x14, 0x83, &mut out).unwrap();
/// let mut wire = Wire::new(Some(0x14), Some(0x83));
/// let mut piece = line;
/// while let Some(heard) = wire.read(&mut piece) {
///     match heard {
///         WireHeard::Message { message, .. } => assert_eq!(message, [54, 5]),
///         other => panic!("{other:?}"),
///     }
/// }
/// ```
#[derive(Clone)]
pub struct Wire(RawWire);

impl Wire {
    /// One's own frames have this address and this control octet; each is one's own if that is `None`.
    pub fn new(address: Option<u8>, control: Option<u8>) -> Wire {
        let mut wire = unsafe { MaybeUninit::<RawWire>::zeroed().assume_init() };
        unsafe { raw::fio2070_wire_start(&mut wire, setting(address), setting(control)) };
        Wire(wire)
    }

    /// Takes octets from the front of the slice, up to the next frame or damage, and returns that; `None` if it took them all
    /// and nothing ended.
    pub fn read(&mut self, octets: &mut &[u8]) -> Option<WireHeard<'_>> {
        let mut kind = WIRE_NOTHING;
        let count = unsafe {
            raw::fio2070_wire_read(&mut self.0, octets.as_ptr(), octets.len(), &mut kind)
        };
        *octets = &octets[count..];
        self.heard(kind)
    }

    /// An octet was lost, or came with a wrong parity or stop bit: what is under way is damaged, whatever its check says.
    /// Before the first flag nothing changes.
    pub fn lose(&mut self) {
        unsafe { raw::fio2070_wire_lose(&mut self.0) }
    }

    fn heard(&self, kind: u8) -> Option<WireHeard<'_>> {
        let length = unsafe { raw::fio2070_wire_message_length(&self.0) };
        heard(kind, &self.0.octets, length)
    }
}

/// A decoder of a line of bits, such as a logic analyser's with one bit a clock. Each octet is a bit, its lowest: so the octets
/// of a text of 0 and 1 serve too. What comes before the first flag says nothing.
#[derive(Clone)]
pub struct WireBits(RawWireBits);

impl WireBits {
    /// One's own frames have this address and this control octet; each is one's own if that is `None`.
    pub fn new(address: Option<u8>, control: Option<u8>) -> WireBits {
        let mut bits = unsafe { MaybeUninit::<RawWireBits>::zeroed().assume_init() };
        unsafe { raw::fio2070_wire_bits_start(&mut bits, setting(address), setting(control)) };
        WireBits(bits)
    }

    /// Takes bits from the front of the slice, up to the next frame or damage, and returns that; `None` if it took them all and
    /// nothing ended.
    pub fn read(&mut self, line: &mut &[u8]) -> Option<WireHeard<'_>> {
        let mut kind = WIRE_NOTHING;
        let count = unsafe {
            raw::fio2070_wire_bits_read(&mut self.0, line.as_ptr(), line.len(), &mut kind)
        };
        *line = &line[count..];
        self.heard(kind)
    }

    fn heard(&self, kind: u8) -> Option<WireHeard<'_>> {
        let length = unsafe { raw::fio2070_wire_bits_message_length(&self.0) };
        heard(kind, &self.0.octets, length)
    }
}
