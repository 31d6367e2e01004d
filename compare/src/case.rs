//! One call with its inputs, put to the library or to the second implementation, and its answer in
//! common terms.

use crate::{rules, sheets};
use nibharrow::exact;
use nibharrow::raw::{BlockRead, BlocksWritten, NetworkHost, NetworkRead, Written};
use std::fmt;

#[derive(Clone, Debug)]
pub enum Case {
    ReadAddress { text: Vec<u8>, family: u32 },
    WriteAddress { address: Vec<u8> },
    ReadLoose { text: Vec<u8> },
    ReadNetwork { text: Vec<u8> },
    WriteNetwork { address: Vec<u8>, size: u32 },
    Split { address: Vec<u8> },
    Join { network: u32, host: u32 },
    ReadBlock { text: Vec<u8> },
    WriteBlock { address: Vec<u8>, length: u32 },
    RangeBlocks { first: Vec<u8>, last: Vec<u8> },
    Gather { records: Vec<u8>, family: u32 },
    Uncovered { records: Vec<u8>, family: u32 },
    Respell { sheet: Vec<u8>, sorted: u32 },
    RefusalText { number: u32 },
}

/// Each call with every refusal the rules make possible for it; 0 is a good answer.
pub const OUTCOMES: [(&str, &[u32]); 14] = [
    ("read_address", &[0, 9, 1, 2, 3]),
    ("write_address", &[0, 2, 3]),
    ("read_loose", &[0, 1, 2, 3]),
    ("read_network", &[0, 1, 2, 4, 3]),
    ("write_network", &[0, 9, 2, 4, 3]),
    ("split", &[0, 9, 2, 6]),
    ("join", &[0, 6, 7, 3]),
    ("read_block", &[0, 1, 2, 4, 5, 3]),
    ("write_block", &[0, 2, 4, 5, 3]),
    ("range_blocks", &[0, 9, 2, 8, 3]),
    ("gather", &[0, 9, 2, 10, 4, 5, 3]),
    ("uncovered", &[0, 9, 2, 10, 4, 5, 3]),
    ("respell", &[0, 1, 10, 2, 3]),
    ("refusal_text", &[0, 2, 3]),
];

/// The records of the longest range, and so more than any other answer but one of a call on records or
/// on a sheet.
const AMPLE_ROOM: usize = 254 * 17;

/// As many lines as a sheet may have, each an address of 39 bytes, a volume of 6 and a pH of 4, with
/// two commas and a newline.
const SHEET_ROOM: usize = 1_024 * (39 + 6 + 4 + 3);

/// The room in which the words of every refusal fit.
pub const REFUSAL_TEXT_ROOM: usize = 54;

/// Every field of an answer. `bytes` counts what was written to the buffer; `values` are the other
/// fields in their order.
#[derive(Clone, Copy, Debug, Default, PartialEq, Eq)]
pub struct Answer {
    pub refusal: u32,
    pub values: [u64; 2],
    pub bytes: usize,
}

impl Answer {
    fn new(refusal: u32, values: [u64; 2], bytes: usize) -> Self {
        Self {
            refusal,
            values,
            bytes,
        }
    }
}

impl From<Written> for Answer {
    fn from(answer: Written) -> Self {
        Self::new(answer.refusal, [0, 0], answer.bytes)
    }
}

impl From<NetworkRead> for Answer {
    fn from(answer: NetworkRead) -> Self {
        Self::new(answer.refusal, [answer.size.into(), 0], answer.bytes)
    }
}

impl From<NetworkHost> for Answer {
    fn from(answer: NetworkHost) -> Self {
        Self::new(
            answer.refusal,
            [answer.network.into(), answer.host.into()],
            0,
        )
    }
}

impl From<BlockRead> for Answer {
    fn from(answer: BlockRead) -> Self {
        Self::new(answer.refusal, [answer.length.into(), 0], answer.bytes)
    }
}

impl From<BlocksWritten> for Answer {
    fn from(answer: BlocksWritten) -> Self {
        Self::new(answer.refusal, [answer.blocks as u64, 0], answer.bytes)
    }
}

/// A refusal, or the values and the bytes of a good answer.
fn settled<T>(result: Result<T, u32>, fields: impl Fn(T) -> ([u64; 2], usize)) -> Answer {
    match result.map(fields) {
        Ok((values, bytes)) => Answer::new(0, values, bytes),
        Err(refusal) => Answer::new(refusal, [0, 0], 0),
    }
}

fn written(result: Result<usize, u32>) -> Answer {
    settled(result, |bytes| ([0, 0], bytes))
}

fn sized(result: Result<(u32, usize), u32>) -> Answer {
    settled(result, |(size, bytes)| ([size.into(), 0], bytes))
}

fn listed(result: Result<(usize, usize), u32>) -> Answer {
    settled(result, |(blocks, bytes)| ([blocks as u64, 0], bytes))
}

impl Case {
    pub fn name(&self) -> &'static str {
        let place = match self {
            Case::ReadAddress { .. } => 0,
            Case::WriteAddress { .. } => 1,
            Case::ReadLoose { .. } => 2,
            Case::ReadNetwork { .. } => 3,
            Case::WriteNetwork { .. } => 4,
            Case::Split { .. } => 5,
            Case::Join { .. } => 6,
            Case::ReadBlock { .. } => 7,
            Case::WriteBlock { .. } => 8,
            Case::RangeBlocks { .. } => 9,
            Case::Gather { .. } => 10,
            Case::Uncovered { .. } => 11,
            Case::Respell { .. } => 12,
            Case::RefusalText { .. } => 13,
        };
        OUTCOMES[place].0
    }

    /// What the library answers.
    pub fn library(&self, out: &mut [u8]) -> Answer {
        match self {
            Case::ReadAddress { text, family } => exact::read_address(text, *family, out).into(),
            Case::WriteAddress { address } => exact::write_address(address, out).into(),
            Case::ReadLoose { text } => exact::read_loose(text, out).into(),
            Case::ReadNetwork { text } => exact::read_network(text, out).into(),
            Case::WriteNetwork { address, size } => {
                exact::write_network(address, *size, out).into()
            }
            Case::Split { address } => exact::split(address).into(),
            Case::Join { network, host } => exact::join(*network, *host, out).into(),
            Case::ReadBlock { text } => exact::read_block(text, out).into(),
            Case::WriteBlock { address, length } => {
                exact::write_block(address, *length, out).into()
            }
            Case::RangeBlocks { first, last } => exact::range_blocks(first, last, out).into(),
            Case::Gather { records, family } => exact::gather(records, *family, out).into(),
            Case::Uncovered { records, family } => exact::uncovered(records, *family, out).into(),
            Case::Respell { sheet, sorted } => exact::respell(sheet, *sorted, out).into(),
            Case::RefusalText { number } => exact::refusal_text(*number, out).into(),
        }
    }

    /// What the second implementation answers.
    pub fn rules(&self, out: &mut [u8]) -> Answer {
        match self {
            Case::ReadAddress { text, family } => written(rules::read_address(text, *family, out)),
            Case::WriteAddress { address } => written(rules::write_address(address, out)),
            Case::ReadLoose { text } => written(rules::read_loose(text, out)),
            Case::ReadNetwork { text } => sized(rules::read_network(text, out)),
            Case::WriteNetwork { address, size } => {
                written(rules::write_network(address, *size, out))
            }
            Case::Split { address } => settled(rules::split(address), |(network, host)| {
                ([network.into(), host.into()], 0)
            }),
            Case::Join { network, host } => written(rules::join(*network, *host, out)),
            Case::ReadBlock { text } => sized(rules::read_block(text, out)),
            Case::WriteBlock { address, length } => {
                written(rules::write_block(address, *length, out))
            }
            Case::RangeBlocks { first, last } => listed(rules::range_blocks(first, last, out)),
            Case::Gather { records, family } => listed(rules::gather(records, *family, out)),
            Case::Uncovered { records, family } => listed(rules::uncovered(records, *family, out)),
            Case::Respell { sheet, sorted } => written(sheets::respell(sheet, *sorted, out)),
            Case::RefusalText { number } => written(refusal_text(*number, out)),
        }
    }

    /// Room for any good answer.
    pub fn ample_room(&self) -> usize {
        match self {
            Case::Gather { records, .. } => records.len(),
            // All is one block at first, and each record takes one apart, into as many as it has bits
            // at most.
            Case::Uncovered { records, family: 4 } => (1 + records.len() / 5 * 31) * 5,
            Case::Uncovered { records, .. } => (1 + records.len() / 17 * 127) * 17,
            Case::Respell { .. } => SHEET_ROOM,
            _ => AMPLE_ROOM,
        }
    }

    /// The library's answer with room for any but the longest ranges, and the bytes it counts.
    pub fn library_ample(&self) -> (Answer, Vec<u8>) {
        let room = match self {
            Case::Gather { .. } | Case::Uncovered { .. } | Case::Respell { .. } => {
                self.ample_room()
            }
            _ => REFUSAL_TEXT_ROOM,
        };
        let mut out = vec![0; room];
        let answer = self.library(&mut out);
        out.truncate(answer.bytes);
        (answer, out)
    }
}

/// The rules do not fix the words of a refusal, so they are the library's own; fixed are the
/// numbers that have words, and that the words are one text which is written whole or not at all.
fn refusal_text(number: u32, out: &mut [u8]) -> Result<usize, u32> {
    if !(1..=10).contains(&number) {
        return Err(rules::MALFORMED);
    }
    let mut words = [0; REFUSAL_TEXT_ROOM];
    let length = exact::refusal_text(number, &mut words).bytes;
    let free = out.get_mut(..length).ok_or(rules::NO_ROOM)?;
    free.copy_from_slice(&words[..length]);
    Ok(length)
}

/// How many bytes are shown at most: all of every list that is handed in, and the start of a long
/// sheet.
const MOST_SHOWN: usize = 9_000;

/// Bytes as escaped text and as hex.
pub struct Shown<'a>(pub &'a [u8]);

impl fmt::Display for Shown<'_> {
    fn fmt(&self, f: &mut fmt::Formatter<'_>) -> fmt::Result {
        let shown = &self.0[..self.0.len().min(MOST_SHOWN)];
        write!(f, "{} bytes \"{}\" = ", self.0.len(), shown.escape_ascii())?;
        shown.iter().try_for_each(|byte| write!(f, "{byte:02x}"))?;
        f.write_str(if shown.len() < self.0.len() { ".." } else { "" })
    }
}

impl fmt::Display for Case {
    fn fmt(&self, f: &mut fmt::Formatter<'_>) -> fmt::Result {
        write!(f, "{}: ", self.name())?;
        match self {
            Case::ReadAddress { text, family } => write!(f, "{}, family {family}", Shown(text)),
            Case::ReadLoose { text } | Case::ReadNetwork { text } | Case::ReadBlock { text } => {
                write!(f, "{}", Shown(text))
            }
            Case::WriteAddress { address } | Case::Split { address } => {
                write!(f, "{}", Shown(address))
            }
            Case::WriteNetwork { address, size } => write!(f, "{}, size {size}", Shown(address)),
            Case::Join { network, host } => write!(f, "network {network}, host {host}"),
            Case::WriteBlock { address, length } => {
                write!(f, "{}, length {length}", Shown(address))
            }
            Case::RangeBlocks { first, last } => write!(f, "{} to {}", Shown(first), Shown(last)),
            Case::Gather { records, family } | Case::Uncovered { records, family } => {
                write!(f, "{}, family {family}", Shown(records))
            }
            Case::Respell { sheet, sorted } => write!(f, "{}, sorted {sorted}", Shown(sheet)),
            Case::RefusalText { number } => write!(f, "number {number}"),
        }
    }
}
