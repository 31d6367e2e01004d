//! The specimens written in the rules, each with the outcome written beside it, and lists and sheets
//! that were worked out by hand.

use crate::case::{Answer, Case};

/// What the buffer holds before a call.
const KEPT: u8 = 0xa5;

pub enum Outcome {
    Refused(u32),
    /// The fields besides the byte count, and the bytes written.
    Answer([u64; 2], Vec<u8>),
    /// That many blocks, in records of the given number of bytes.
    Blocks(usize, usize),
}

pub struct Specimen {
    pub case: Case,
    pub outcome: Outcome,
}

impl Specimen {
    /// Whether a program, which is one of the two that are compared, gives the written outcome.
    pub fn holds(&self, program: fn(&Case, &mut [u8]) -> Answer) -> bool {
        let mut out = vec![KEPT; self.case.ample_room()];
        let answer = program(&self.case, &mut out);
        let (written, rest) = out.split_at(answer.bytes);
        let as_written = match &self.outcome {
            &Outcome::Refused(refusal) => {
                let zero = Answer::default();
                answer == Answer { refusal, ..zero }
            }
            Outcome::Answer(values, bytes) => {
                (answer.refusal, &answer.values) == (0, values) && written == bytes
            }
            &Outcome::Blocks(blocks, record) => {
                let values = [blocks as u64, 0];
                (answer.refusal, answer.values) == (0, values) && written.len() == blocks * record
            }
        };
        as_written && rest.iter().all(|&byte| byte == KEPT)
    }
}

/// The whole case of the range program: its input and its output.
pub const WHOLE_CASE: (&str, &str) = (
    "10.0.0.1 10.0.0.6",
    "10.0.0.1/32\n10.0.0.2/31\n10.0.0.4/31\n10.0.0.6/32\n",
);

pub fn rows() -> Vec<Specimen> {
    let mut rows = Vec::new();
    let mut row = |case, outcome| rows.push(Specimen { case, outcome });
    row(strict("010.0.0.12"), Outcome::Refused(2));
    row(loose("010.0.0.12"), bytes(&[8, 0, 0, 12]));
    row(loose("226.000.000.037"), bytes(&[226, 0, 0, 31]));
    row(loose("0x7f.1"), bytes(&[127, 0, 0, 1]));
    row(loose("1.2.65535"), bytes(&[1, 2, 255, 255]));
    row(loose("1.2.65536"), Outcome::Refused(2));
    row(loose("08.0.0.1"), Outcome::Refused(2));
    row(loose("0x"), Outcome::Refused(2));
    row(strict("1:2:3:4:5:6:7:8::"), Outcome::Refused(2));
    for (text, groups, normal) in [
        (
            "1:2:3:4:5:6:7::",
            [1, 2, 3, 4, 5, 6, 7, 0],
            "1:2:3:4:5:6:7:0",
        ),
        (
            "0:0:0:0:0:FFFF:204.152.189.116",
            [0, 0, 0, 0, 0, 0xffff, 0xcc98, 0xbd74],
            "::ffff:cc98:bd74",
        ),
        (
            "2001:db8:0:0:1:0:0:1",
            [0x2001, 0xdb8, 0, 0, 1, 0, 0, 1],
            "2001:db8::1:0:0:1",
        ),
    ] {
        let address: Vec<u8> = groups.into_iter().flat_map(u16::to_be_bytes).collect();
        row(strict(text), bytes(&address));
        row(Case::WriteAddress { address }, bytes(normal.as_bytes()));
    }
    rows.extend(networks());
    rows.extend(blocks_and_ranges());
    rows.extend(lists());
    rows.extend(sheets());
    rows
}

fn networks() -> Vec<Specimen> {
    let read = |text: &str, size, network: &[u8]| Specimen {
        case: Case::ReadNetwork { text: text.into() },
        outcome: Outcome::Answer([size, 0], network.to_vec()),
    };
    let write = |address: [u8; 4], size, text: &str| Specimen {
        case: Case::WriteNetwork {
            address: address.into(),
            size,
        },
        outcome: bytes(text.as_bytes()),
    };
    vec![
        read("193.168", 24, &[0xc1, 0xa8, 0]),
        read("193.168.1.128/24", 24, &[193, 168, 1, 128]),
        write([193, 168, 1, 128], 24, "193.168.1/24"),
        read("224.1", 4, &[0xe0, 1]),
        write([224, 1, 0, 0], 4, "224/4"),
        read("0xabc", 16, &[0xab, 0xc0]),
        write([255; 4], 0, "0/0"),
    ]
}

fn blocks_and_ranges() -> Vec<Specimen> {
    let block = |text: &str, refusal| Specimen {
        case: Case::ReadBlock { text: text.into() },
        outcome: Outcome::Refused(refusal),
    };
    let range = |first: &[u8], last: &[u8], outcome| Specimen {
        case: Case::RangeBlocks {
            first: first.into(),
            last: last.into(),
        },
        outcome,
    };
    let whole_case = [
        [0x0a, 0, 0, 1, 0x20],
        [0x0a, 0, 0, 2, 0x1f],
        [0x0a, 0, 0, 4, 0x1f],
        [0x0a, 0, 0, 6, 0x20],
    ];
    let (second, last_but_one) = (1u128.to_be_bytes(), (u128::MAX - 1).to_be_bytes());
    vec![
        block("10.0.0.1/31", 5),
        block("10.0.0.0/33", 4),
        range(&[0; 4], &[255; 4], Outcome::Answer([1, 0], vec![0; 5])),
        range(&[0, 0, 0, 1], &[255, 255, 255, 254], Outcome::Blocks(62, 5)),
        range(&second, &last_but_one, Outcome::Blocks(254, 17)),
        range(
            &[10, 0, 0, 1],
            &[10, 0, 0, 6],
            Outcome::Answer([4, 0], whole_case.concat()),
        ),
    ]
}

/// Each list with what it gathers to and what it does not cover.
fn lists() -> Vec<Specimen> {
    // Of both families alike, since the first octet says all: an address that has no other, and the
    // length.
    let lists: [[&[(u8, u8)]; 3]; 9] = [
        [&[], &[], &[(0, 0)]],
        [&[(0, 0)], &[(0, 0)], &[]],
        [&[(128, 1), (0, 1)], &[(0, 0)], &[]],
        [&[(0, 1)], &[(0, 1)], &[(128, 1)]],
        // one inside another, and one twice
        [
            &[(160, 3), (128, 2), (128, 2), (176, 4)],
            &[(128, 2)],
            &[(0, 1), (192, 2)],
        ],
        // two that touch and are no halves
        [
            &[(128, 2), (64, 2)],
            &[(64, 2), (128, 2)],
            &[(0, 2), (192, 2)],
        ],
        // halves of a half
        [&[(96, 3), (0, 2), (64, 3)], &[(0, 1)], &[(128, 1)]],
        // the first and the last
        [
            &[(254, 7), (0, 7)],
            &[(0, 7), (254, 7)],
            &[
                (2, 7),
                (4, 6),
                (8, 5),
                (16, 4),
                (32, 3),
                (64, 2),
                (128, 2),
                (192, 3),
                (224, 4),
                (240, 5),
                (248, 6),
                (252, 7),
            ],
        ],
        // all but one
        [
            &[(128, 1), (32, 3), (0, 4), (64, 2), (24, 5)],
            &[(0, 4), (24, 5), (32, 3), (64, 2), (128, 1)],
            &[(16, 5)],
        ],
    ];
    let mut rows = Vec::new();
    for (family, octets) in [(4, 4), (6, 16)] {
        let records = |blocks: &[(u8, u8)]| -> Vec<u8> {
            let record = |&(first, length): &(u8, u8)| {
                let mut record = vec![0; octets + 1];
                (record[0], record[octets]) = (first, length);
                record
            };
            blocks.iter().flat_map(record).collect()
        };
        for [list, gathered, rest] in lists {
            let outcome = |blocks: &[_]| Outcome::Answer([blocks.len() as u64, 0], records(blocks));
            let list = records(list);
            rows.push(Specimen {
                case: Case::Gather {
                    records: list.clone(),
                    family,
                },
                outcome: outcome(gathered),
            });
            rows.push(Specimen {
                case: Case::Uncovered {
                    records: list,
                    family,
                },
                outcome: outcome(rest),
            });
        }
    }
    rows
}

/// Each sheet with what it is respelled, and what it is respelled and sorted.
const SHEETS: [[&str; 3]; 5] = [
    ["", "", ""],
    // The apprentice sorted the column of addresses alone, and every reading left its address.
    [
        "10.0.0.7,312,655\n10.0.0.2,84,702\n10.0.0.5,1029,588\n",
        "10.0.0.7,312,655\n10.0.0.2,84,702\n10.0.0.5,1029,588\n",
        "10.0.0.2,84,702\n10.0.0.5,1029,588\n10.0.0.7,312,655\n",
    ],
    // by number and not by text, IPv4 before IPv6
    [
        "::,1,0\n10.0.0.10,1,0\n::A,1,0\n10.0.0.9,1,0\n::9,1,0\n",
        "::,1,0\n10.0.0.10,1,0\n::a,1,0\n10.0.0.9,1,0\n::9,1,0\n",
        "10.0.0.9,1,0\n10.0.0.10,1,0\n::,1,0\n::9,1,0\n::a,1,0\n",
    ],
    // one address in three spellings, with readings that fall
    [
        "2001:db8:0:0:1:0:0:1,3,9\n::1,7,7\n2001:DB8::1:0:0:1,2,8\n2001:db8:0:0:1::1,1,7\n",
        "2001:db8::1:0:0:1,3,9\n::1,7,7\n2001:db8::1:0:0:1,2,8\n2001:db8::1:0:0:1,1,7\n",
        "::1,7,7\n2001:db8::1:0:0:1,3,9\n2001:db8::1:0:0:1,2,8\n2001:db8::1:0:0:1,1,7\n",
    ],
    // one byte longer than it was, and the largest numbers
    [
        "1::2:3:4:5:6:7,999999,1400\n",
        "1:0:2:3:4:5:6:7,999999,1400\n",
        "1:0:2:3:4:5:6:7,999999,1400\n",
    ],
];

fn sheets() -> Vec<Specimen> {
    let row = |sheet: &str, sorted, outcome| Specimen {
        case: Case::Respell {
            sheet: sheet.into(),
            sorted,
        },
        outcome,
    };
    let mut rows = Vec::new();
    for [sheet, respelled, arranged] in SHEETS {
        rows.push(row(sheet, 0, bytes(respelled.as_bytes())));
        rows.push(row(sheet, 1, bytes(arranged.as_bytes())));
    }
    for (sheet, refusal) in [
        ("\n".repeat(65_537), 1),
        ("\n".repeat(65_536), 10),
        ("::1,1,0\n".repeat(1_025), 10),
        ("::1,1,0\n".repeat(1_024) + "::1,1,0", 10),
        ("::1,1,0".to_string(), 2),
        ("::1,0,0\n".to_string(), 2),
        ("::1,1,1401\n".to_string(), 2),
        ("::1,1,0\r\n".to_string(), 2),
        ("010.0.0.12,1,0\n".to_string(), 2),
    ] {
        rows.push(row(&sheet, 1, Outcome::Refused(refusal)));
    }
    rows
}

fn strict(text: &str) -> Case {
    let text = text.into();
    Case::ReadAddress { text, family: 0 }
}

fn loose(text: &str) -> Case {
    Case::ReadLoose { text: text.into() }
}

fn bytes(bytes: &[u8]) -> Outcome {
    Outcome::Answer([0, 0], bytes.to_vec())
}
