//! The calls of the C interface with slices in place of pointers and lengths. Each gives the answer
//! of the library as it is: the refusal's number first, 0 for none, and every other field.
//!
//! All unsafe code of the crate is here.

#![allow(unsafe_code)]

use crate::raw::{self, BlockRead, BlocksWritten, NetworkHost, NetworkRead, Written};

/// Defines a function for each row. A row names the slices to be read, the numbers, and the buffer
/// to be written, in this order, which every function of the header has.
macro_rules! calls {
    ($(
        $name:ident = $raw:ident($($lent:ident)*; $($number:ident)*; $($out:ident)?) -> $answer:ident;
    )*) => {$(
        #[doc = concat!("`", stringify!($raw), "`, which the header in [`raw`] documents.")]
        #[inline]
        pub fn $name(
            $($lent: &[u8],)*
            $($number: u32,)*
            $($out: &mut [u8],)?
        ) -> $answer {
            // SAFETY: the header asks that a pointer and its length name bytes that may be read, or
            // written where the pointer is not to const, and that a written buffer overlaps nothing
            // else lent. `&[u8]` and `&mut [u8]` say both. That `raw` declares the functions as the
            // header does is tested.
            unsafe {
                raw::$raw(
                    $($lent.as_ptr(), $lent.len(),)*
                    $($number,)*
                    $($out.as_mut_ptr(), $out.len(),)?
                )
            }
        }
    )*};
}

calls! {
    read_address = nibharrow_read_address(text; family; out) -> Written;
    write_address = nibharrow_write_address(address; ; out) -> Written;
    read_loose = nibharrow_read_loose(text; ; out) -> Written;
    read_network = nibharrow_read_network(text; ; out) -> NetworkRead;
    write_network = nibharrow_write_network(address; size; out) -> Written;
    split = nibharrow_split(address; ;) -> NetworkHost;
    join = nibharrow_join(; network host; out) -> Written;
    read_block = nibharrow_read_block(text; ; out) -> BlockRead;
    write_block = nibharrow_write_block(address; length; out) -> Written;
    range_blocks = nibharrow_range_blocks(first last; ; out) -> BlocksWritten;
    gather = nibharrow_gather(records; family; out) -> BlocksWritten;
    uncovered = nibharrow_uncovered(records; family; out) -> BlocksWritten;
    respell = nibharrow_respell(sheet; sorted; out) -> Written;
    refusal_text = nibharrow_refusal_text(; number; out) -> Written;
}
