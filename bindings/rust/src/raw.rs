//! The C interface as it is, for callers who want an answer's every field: the declarations of
//! `include/nibharrow.h`, which documents them.
//!
//! A slice is passed as its pointer and its length. The functions are `unsafe` because a pointer
//! does not say, as a slice does, that its bytes may be read or written, and because no compiler
//! checks these declarations against the library.
//!
#![doc = concat!("```c\n", include_str!("../../../include/nibharrow.h"), "```")]
#![allow(missing_docs)] // the header has what there is to say of each field and function

/// How many bytes a call has written to the start of the lent buffer.
#[repr(C)]
#[derive(Clone, Copy, Debug, PartialEq, Eq)]
pub struct Written {
    pub refusal: u32,
    pub bytes: usize,
}

/// A network's size in bits, and how many of its bytes are at the start of the lent buffer.
#[repr(C)]
#[derive(Clone, Copy, Debug, PartialEq, Eq)]
pub struct NetworkRead {
    pub refusal: u32,
    pub size: u32,
    pub bytes: usize,
}

/// An address of class A, B or C as a network number and a host number.
#[repr(C)]
#[derive(Clone, Copy, Debug, PartialEq, Eq)]
pub struct NetworkHost {
    pub refusal: u32,
    pub network: u32,
    pub host: u32,
}

/// A block's prefix length, and how many bytes of its address are at the start of the lent buffer.
#[repr(C)]
#[derive(Clone, Copy, Debug, PartialEq, Eq)]
pub struct BlockRead {
    pub refusal: u32,
    pub length: u32,
    pub bytes: usize,
}

/// How many records are at the start of the lent buffer, and how many bytes they fill.
#[repr(C)]
#[derive(Clone, Copy, Debug, PartialEq, Eq)]
pub struct BlocksWritten {
    pub refusal: u32,
    pub blocks: usize,
    pub bytes: usize,
}

extern "C" {
    pub fn nibharrow_read_address(
        text: *const u8,
        text_length: usize,
        family: u32,
        out: *mut u8,
        out_length: usize,
    ) -> Written;
    pub fn nibharrow_write_address(
        address: *const u8,
        address_length: usize,
        out: *mut u8,
        out_length: usize,
    ) -> Written;
    pub fn nibharrow_read_loose(
        text: *const u8,
        text_length: usize,
        out: *mut u8,
        out_length: usize,
    ) -> Written;
    pub fn nibharrow_read_network(
        text: *const u8,
        text_length: usize,
        out: *mut u8,
        out_length: usize,
    ) -> NetworkRead;
    pub fn nibharrow_write_network(
        address: *const u8,
        address_length: usize,
        size: u32,
        out: *mut u8,
        out_length: usize,
    ) -> Written;
    pub fn nibharrow_split(address: *const u8, address_length: usize) -> NetworkHost;
    pub fn nibharrow_join(network: u32, host: u32, out: *mut u8, out_length: usize) -> Written;
    pub fn nibharrow_read_block(
        text: *const u8,
        text_length: usize,
        out: *mut u8,
        out_length: usize,
    ) -> BlockRead;
    pub fn nibharrow_write_block(
        address: *const u8,
        address_length: usize,
        length: u32,
        out: *mut u8,
        out_length: usize,
    ) -> Written;
    pub fn nibharrow_range_blocks(
        first: *const u8,
        first_length: usize,
        last: *const u8,
        last_length: usize,
        out: *mut u8,
        out_length: usize,
    ) -> BlocksWritten;
    pub fn nibharrow_gather(
        records: *const u8,
        records_length: usize,
        family: u32,
        out: *mut u8,
        out_length: usize,
    ) -> BlocksWritten;
    pub fn nibharrow_uncovered(
        records: *const u8,
        records_length: usize,
        family: u32,
        out: *mut u8,
        out_length: usize,
    ) -> BlocksWritten;
    pub fn nibharrow_respell(
        sheet: *const u8,
        sheet_length: usize,
        sorted: u32,
        out: *mut u8,
        out_length: usize,
    ) -> Written;
    pub fn nibharrow_refusal_text(number: u32, out: *mut u8, out_length: usize) -> Written;
}
