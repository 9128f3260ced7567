//! The exports of `libzubhanit.a`, as `include/zubhanit.h` has them. No pointer may be null.

use std::marker::PhantomData;

pub const DONE: u32 = 0;
pub const RANGE: u32 = 2;
pub const REFUSED: u32 = 3;
pub const ROOM: u32 = 4;
pub const NO_MEMORY: u32 = 7;

/// Where what was to be read is refused, and why by its number.
#[repr(C)]
#[derive(Clone, Copy, Debug, Default, PartialEq, Eq)]
pub struct Refusal {
    pub at: u32,
    pub why: u32,
}

/// A slice of octets as it crosses: never null.
#[repr(C)]
#[derive(Clone, Copy)]
pub struct Octets<'a> {
    start: *const u8,
    length: usize,
    of: PhantomData<&'a [u8]>,
}

impl<'a> Octets<'a> {
    pub fn as_slice(self) -> &'a [u8] {
        // SAFETY: the pair is that of a slice that lives for 'a: `from` made it, or the library, of the block it was given.
        unsafe { std::slice::from_raw_parts(self.start, self.length) }
    }
}

impl<'a> From<&'a [u8]> for Octets<'a> {
    fn from(octets: &'a [u8]) -> Self {
        Octets { start: octets.as_ptr(), length: octets.len(), of: PhantomData }
    }
}

impl Default for Octets<'_> {
    fn default() -> Self {
        Octets::from(&[][..])
    }
}

#[repr(C)]
#[derive(Clone, Copy, Default)]
pub struct MacItem<'a> {
    pub kind: u32,
    pub lcid: u32,
    pub octets: Octets<'a>,
    pub padding: u32,
    pub fields: [u8; 8],
}

#[repr(C)]
#[derive(Clone, Copy, Debug, Default, PartialEq, Eq)]
pub struct RlcHeader {
    pub kind: u32,
    pub sn: u32,
    pub fi: u8,
    pub poll: u8,
    pub last: u8,
    pub so: u32,
}

#[repr(C)]
#[derive(Clone, Copy, Debug, Default, PartialEq, Eq)]
pub struct Nack {
    pub sn: u32,
    pub has_part: u32,
    pub start: u32,
    pub end: u32,
}

#[repr(C)]
#[derive(Clone, Copy, Default)]
pub struct PdcpPdu<'a> {
    pub kind: u32,
    pub sn: u32,
    pub octets: Octets<'a>,
    pub tag: [u8; 4],
}

extern "C" {
    pub fn zubhanit_eea2(
        key: *const [u8; 16], count: u32, bearer: u32, direction: u32, text: *mut u8, text_len: usize,
    ) -> u32;
    pub fn zubhanit_eia2(
        key: *const [u8; 16], count: u32, bearer: u32, direction: u32, message: *const u8, message_len: usize,
        tag: *mut [u8; 4],
    ) -> u32;
    pub fn zubhanit_mac_read(
        direction: u32, block: *const u8, block_len: usize, items: *mut MacItem<'_>, items_len: usize,
        count: *mut usize, refusal: *mut Refusal,
    ) -> u32;
    pub fn zubhanit_mac_write(
        direction: u32, items: *const MacItem<'_>, items_len: usize, block: *mut u8, block_len: usize,
        least: *mut usize,
    ) -> u32;
    pub fn zubhanit_am_read(
        pdu: *const u8, pdu_len: usize, header: *mut RlcHeader, elements: *mut Octets<'_>, elements_len: usize,
        nacks: *mut Nack, nacks_len: usize, count: *mut usize, refusal: *mut Refusal,
    ) -> u32;
    pub fn zubhanit_umd_read(
        bits: u32, pdu: *const u8, pdu_len: usize, header: *mut RlcHeader, elements: *mut Octets<'_>,
        elements_len: usize, count: *mut usize, refusal: *mut Refusal,
    ) -> u32;
    pub fn zubhanit_umd_write(
        bits: u32, header: *const RlcHeader, elements: *const Octets<'_>, elements_len: usize, pdu: *mut u8,
        pdu_len: usize, size: *mut usize,
    ) -> u32;
    pub fn zubhanit_amd_write(
        header: *const RlcHeader, elements: *const Octets<'_>, elements_len: usize, pdu: *mut u8, pdu_len: usize,
        size: *mut usize,
    ) -> u32;
    pub fn zubhanit_status_write(
        ack: u32, nacks: *const Nack, nacks_len: usize, pdu: *mut u8, pdu_len: usize, size: *mut usize,
    ) -> u32;
    pub fn zubhanit_pdcp_user_read(
        bits: u32, pdu: *const u8, pdu_len: usize, fields: *mut PdcpPdu<'_>, refusal: *mut Refusal,
    ) -> u32;
    pub fn zubhanit_pdcp_srb_read(
        pdu: *const u8, pdu_len: usize, fields: *mut PdcpPdu<'_>, refusal: *mut Refusal,
    ) -> u32;
    pub fn zubhanit_pdcp_user_write(
        bits: u32, fields: *const PdcpPdu<'_>, pdu: *mut u8, pdu_len: usize, size: *mut usize,
    ) -> u32;
    pub fn zubhanit_pdcp_srb_write(fields: *const PdcpPdu<'_>, pdu: *mut u8, pdu_len: usize, size: *mut usize) -> u32;
    #[cfg(feature = "texts")]
    pub fn zubhanit_run(
        script: *const u8, script_len: usize, journal: *mut u8, journal_len: usize, size: *mut usize,
        message: *mut u8, message_len: usize, message_size: *mut usize,
    ) -> u32;
    #[cfg(feature = "texts")]
    pub fn zubhanit_decode(
        blocks: *const u8, blocks_len: usize, journal: *mut u8, journal_len: usize, size: *mut usize,
        message: *mut u8, message_len: usize, message_size: *mut usize,
    ) -> u32;
}
