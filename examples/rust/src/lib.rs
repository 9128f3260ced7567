//! Safe calls over `libzubhanit.a`: 128-EEA2 and 128-EIA2, PDUs of MAC, RLC and PDCP, and texts played and shown.
//!
//! References and slices are what the exports ask of their pointers, and `&mut` rules out that what is written overlaps.

pub mod sys;
#[cfg(feature = "texts")]
mod texts;

pub use sys::{MacItem, Nack, Octets, PdcpPdu, Refusal, RlcHeader};
#[cfg(feature = "texts")]
pub use texts::{decode, run, Played};

/// Why a call did nothing.
#[derive(Clone, Copy, Debug, PartialEq, Eq)]
pub enum Error {
    /// A number or a length is out of the range that its parameter has.
    Range,
    /// What was to be read is refused.
    Refused(Refusal),
    /// There is too little room; where the call tells it, so much is needed.
    Room(usize),
    NoMemory,
}

fn answered<T>(answer: u32, value: T, refusal: Refusal, needed: usize) -> Result<T, Error> {
    match answer {
        sys::DONE => Ok(value),
        sys::RANGE => Err(Error::Range),
        sys::REFUSED => Err(Error::Refused(refusal)),
        sys::ROOM => Err(Error::Room(needed)),
        _ => Err(Error::NoMemory),
    }
}

/// Where a text is ciphered or protected: its COUNT, its radio bearer's identity less 1 (0 to 31), and its direction.
#[derive(Clone, Copy, Debug, PartialEq, Eq)]
pub struct Place {
    pub count: u32,
    pub bearer: u32,
    pub direction: Direction,
}

#[derive(Clone, Copy, Debug, PartialEq, Eq)]
pub enum Direction {
    Up = 0,
    Down = 1,
}

/// 128-EEA2, in place.
pub fn eea2(key: &[u8; 16], place: Place, text: &mut [u8]) -> Result<(), Error> {
    // SAFETY: as the head of this file says, here and below.
    let answer = unsafe {
        sys::zubhanit_eea2(
            key, place.count, place.bearer, place.direction as u32, text.as_mut_ptr(), text.len(),
        )
    };
    answered(answer, (), Refusal::default(), 0)
}

/// 128-EIA2: the MAC-I of a message.
pub fn eia2(key: &[u8; 16], place: Place, message: &[u8]) -> Result<[u8; 4], Error> {
    let mut tag = [0; 4];
    let answer = unsafe {
        sys::zubhanit_eia2(
            key, place.count, place.bearer, place.direction as u32, message.as_ptr(), message.len(), &mut tag,
        )
    };
    answered(answer, tag, Refusal::default(), 0)
}

/// The items of a block, into the front of an array.
pub fn mac_read<'a, 'i>(
    direction: Direction, block: &'a [u8], items: &'i mut [MacItem<'a>],
) -> Result<&'i [MacItem<'a>], Error> {
    let (mut count, mut refusal) = (0, Refusal::default());
    let answer = unsafe {
        sys::zubhanit_mac_read(
            direction as u32, block.as_ptr(), block.len(), items.as_mut_ptr(), items.len(), &mut count, &mut refusal,
        )
    };
    answered(answer, &items[..count], refusal, 0)
}

/// The canonical block of items, over all of `block`.
pub fn mac_write(direction: Direction, items: &[MacItem<'_>], block: &mut [u8]) -> Result<(), Error> {
    let mut least = 0;
    let answer = unsafe {
        sys::zubhanit_mac_write(
            direction as u32, items.as_ptr(), items.len(), block.as_mut_ptr(), block.len(), &mut least,
        )
    };
    answered(answer, (), Refusal::default(), least)
}

/// A PDU of an acknowledged bearer that was read.
pub enum AmPdu<'i, 'a> {
    Payload(RlcHeader, &'i [Octets<'a>]),
    Status { ack: u32, nacks: &'i [Nack] },
}

const STATUS: u32 = 3;

/// A PDU of an acknowledged bearer, into the front of one of two arrays.
pub fn am_read<'a, 'i>(
    pdu: &'a [u8], elements: &'i mut [Octets<'a>], nacks: &'i mut [Nack],
) -> Result<AmPdu<'i, 'a>, Error> {
    let (mut header, mut count, mut refusal) = (RlcHeader::default(), 0, Refusal::default());
    let answer = unsafe {
        sys::zubhanit_am_read(
            pdu.as_ptr(), pdu.len(), &mut header, elements.as_mut_ptr(), elements.len(), nacks.as_mut_ptr(),
            nacks.len(), &mut count, &mut refusal,
        )
    };
    answered(answer, (), refusal, 0)?;
    Ok(if header.kind == STATUS {
        AmPdu::Status { ack: header.sn, nacks: &nacks[..count] }
    } else {
        AmPdu::Payload(header, &elements[..count])
    })
}

/// A PDU of a data bearer, whose numbers have 7, 12 or 15 bits.
pub fn pdcp_read(bits: u32, pdu: &[u8]) -> Result<PdcpPdu<'_>, Error> {
    let (mut fields, mut refusal) = (PdcpPdu::default(), Refusal::default());
    let answer = unsafe {
        sys::zubhanit_pdcp_user_read(bits, pdu.as_ptr(), pdu.len(), &mut fields, &mut refusal)
    };
    answered(answer, fields, refusal, 0)
}
