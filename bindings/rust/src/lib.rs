//! IP addresses read, written, split and turned into blocks, lists of blocks gathered, and sheets
//! respelled, by a library proved to keep its rules.
//!
//! Every call of Nibharrow gives, for each input, the one answer that its rules fix, or one of ten
//! [`Refusal`]s. No text is read by a rule that the caller did not ask for: `010.0.0.12` is refused
//! as strict text, and is 8.0.0.12 in the loose form, in which a leading `0` means octal.
//!
//! | Job | Calls |
//! |---|---|
//! | strict text, read | [`read_address`], [`read_address_of`], [`read_ipv4`], [`read_ipv6`] |
//! | normal text, written | [`write_address`], [`write_address_into`] |
//! | the loose IPv4 form, read | [`read_loose`] |
//! | the network form of IPv4 | [`read_network`], [`write_network`], [`write_network_into`] |
//! | the classes A, B and C | [`split`], [`join`] |
//! | the text of a block | [`Block`], [`read_block`], [`write_block_into`] |
//! | a range into the fewest blocks | [`range_blocks`], [`range_records`] |
//! | a list into the fewest blocks | [`gather`], [`gather_records`] |
//! | what a list does not cover | [`uncovered`], [`uncovered_records`] |
//! | a sheet, respelled and sorted | [`respell`], [`respell_into`] |
//!
//! ```
//! use nibharrow::{range_blocks, read_address, write_address, Refusal};
//!
//! let address = read_address("2001:DB8:0:0:1:0:0:1")?;
//! assert_eq!(write_address(address), "2001:db8::1:0:0:1");
//! assert_eq!(read_address("010.0.0.12"), Err(Refusal::Malformed));
//!
//! let blocks = range_blocks(read_address("10.0.0.1")?, read_address("10.0.0.6")?)?;
//! let texts: Vec<String> = blocks.iter().map(|block| block.to_string()).collect();
//! assert_eq!(texts, ["10.0.0.1/32", "10.0.0.2/31", "10.0.0.4/31", "10.0.0.6/32"]);
//! # Ok::<(), Refusal>(())
//! ```
//!
//! # Text, buffers and refusals
//!
//! Text is any bytes, a `&str` or a `&[u8]`, of at most 64, and a sheet of at most 65,536. A zero
//! byte in it or a blank around it is a wrong byte.
//!
//! A call that is lent a buffer, such as one whose name ends in `_into` or `_records`, writes to it and
//! allocates nothing. A good answer changes only the bytes it counts, at the start of the buffer; a refused
//! call changes none. [`room`] has the sizes that always suffice. [`exact`] has the calls of the C
//! interface on slices, with every field of their answers.
//!
//! Where several refusals hold, the first of `WrongFamily`, `TextTooLong`, `Malformed`,
//! `LengthTooLarge`, `BitsBeyondLength`, `NoClass`, `HostTooLarge`, `FirstAboveLast`, `NoRoom` is
//! given. Of a list it is the first of `WrongFamily`, `Malformed` and `TooMany`, then that of the
//! first bad record, `LengthTooLarge` before `BitsBeyondLength`, then `NoRoom`. Of a sheet it is the
//! first of `TextTooLong`, `TooMany`, `Malformed` and `NoRoom`. No call panics, whatever it is handed.
//! None keeps state, so all may be made from several threads at once.
//!
//! # What is proved, and what is not
//!
//! The library is written in Rattle, a language in which a checker accepts a function only with a
//! proof that it meets its contract for every input, does nothing undefined, and ends. So the answer
//! to each call, and the whole of the lent buffer afterwards, is proved of the library's source.
//!
//! The proof does not cover the C boundary, where a pointer and a length become a slice, nor the code
//! of this crate: that the declarations in [`raw`] agree with the library, that each buffer is lent
//! as the header asks, the conversions between bytes and the types of the standard library, that the
//! blocks handed to [`gather`] and [`uncovered`] are of one family, and [`Block::contains`]. Tests
//! check these. `docs/TRUST.md` says what the proof itself rests on.
//!
//! # Linking
//!
//! The build script links `libnibharrow.a`, which `tools/staticlib` writes to
//! `target/staticlib`. The environment variable `NIBHARROW_LIB_DIR` names another folder that holds
//! it, by its absolute path.

#![warn(missing_docs)]
#![deny(unsafe_code, unsafe_op_in_unsafe_fn)]

mod address;
mod block;
mod classes;
pub mod exact;
mod gather;
mod lend;
mod loose;
mod network;
mod range;
pub mod raw;
mod records;
mod refusal;
pub mod room;
mod sheet;

pub use address::{
    read_address, read_address_of, read_ipv4, read_ipv6, write_address, write_address_into, Family,
};
pub use block::{read_block, write_block_into, Block};
pub use classes::{join, split};
pub use gather::{gather, gather_records, uncovered, uncovered_records};
pub use loose::read_loose;
pub use network::{read_network, write_network, write_network_into, Network};
pub use range::{range_blocks, range_records};
pub use records::{Records, MOST_RECORDS};
pub use refusal::Refusal;
pub use sheet::{respell, respell_into, LONGEST_SHEET, MOST_LINES};
