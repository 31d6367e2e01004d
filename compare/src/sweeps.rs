//! Inputs gone through in order: every byte at every place, every length, every room, every
//! boundary.

use crate::case::{Case, REFUSAL_TEXT_ROOM};
use crate::generate::{any_bytes, form_bytes, octets, CLASS_EDGES, HOST_EDGES};
use crate::rules;
use crate::run::Run;
use crate::specimens::{rows, WHOLE_CASE};

const MOST_ROOM: usize = 50;

const VALID_TEXTS: [&str; 12] = [
    "0.0.0.0",
    "192.168.1.25",
    "255.255.255.255",
    "::",
    "2001:DB8::1:0:0:1",
    "1:2:3:4:5:6:7::",
    "::ffff:1.2.3.40",
    "0x7f.0177.65535",
    "193.168.1.128/24",
    "0xabc/20",
    "2001:db8::/32",
    "10.0.0.0/8",
];

/// One part, group or digit too many or too few, `::` in the wrong place, and signs and blanks.
const NEAR_MISSES: [&str; 36] = [
    "1.2.3",
    "1.2.3.4.5",
    "1.2.3.4.",
    ".1.2.3.4",
    "1..2.3",
    "1.2.3.256",
    "1.2.3.00",
    "00.0.0.0",
    "+1.2.3.4",
    "1.2.3.-4",
    " 1.2.3.4",
    "1.2.3.4 ",
    "1.2.3.4%1",
    "1:2:3:4:5:6:7",
    "1:2:3:4:5:6:7:8:9",
    "1:2:3:4::5:6:7:8",
    "::1:2:3:4:5:6:7:8",
    "1:2:3:4:5:6:7:8::",
    "::1::",
    ":::",
    ":",
    "1:",
    ":1",
    "1:2:3:4:5:6:7:",
    "::12345",
    "::00001",
    "1:2:3:4:5:6:7:1.2.3.4",
    "1:2:3:4:5:6::1.2.3.4",
    "::1.2.3.4:5",
    "::1.2.3",
    "fe80::1%eth0",
    "[::1]",
    "0x123456789",
    "1.2.3.4.5/8",
    "1/+8",
    "0x/8",
];

pub type Sweep = fn(&mut Run);

pub const SWEEPS: [Sweep; 11] = [
    specimens,
    near_misses,
    every_byte_everywhere,
    every_length,
    every_room,
    zero_group_patterns,
    every_size,
    every_byte_count,
    classes,
    ranges,
    refusal_texts,
];

/// The text put to every reader.
fn readers(text: &[u8]) -> [Case; 4] {
    let text = text.to_vec();
    [
        Case::ReadAddress {
            text: text.clone(),
            family: 0,
        },
        Case::ReadLoose { text: text.clone() },
        Case::ReadNetwork { text: text.clone() },
        Case::ReadBlock { text },
    ]
}

/// The written outcomes, in both programs.
fn specimens(run: &mut Run) {
    for specimen in rows() {
        run.compare_tight(&specimen.case);
        for (name, program) in [
            ("library", Case::library as fn(&_, &mut _) -> _),
            ("rules", Case::rules),
        ] {
            let holds = specimen.holds(program);
            run.judge.expect(holds, || {
                format!("{} is not as written, in the {name}", specimen.case)
            });
        }
    }
    let (input, output) = WHOLE_CASE;
    let holds = rules::ranges_program(input.as_bytes()) == output.as_bytes();
    run.judge
        .expect(holds, || "the whole case is not as written".to_string());
}

fn near_misses(run: &mut Run) {
    for text in NEAR_MISSES {
        for length in ["", "/", "/0", "/32", "/128"] {
            for case in readers(format!("{text}{length}").as_bytes()) {
                run.compare_tight(&case);
            }
        }
    }
}

fn every_byte_everywhere(run: &mut Run) {
    for valid in VALID_TEXTS {
        for place in 0..valid.len() {
            for byte in 0..=255 {
                let mut text = valid.as_bytes().to_vec();
                text[place] = byte;
                for case in readers(&text) {
                    run.compare(&case, 16);
                }
            }
        }
    }
}

/// Texts of 0 to 80 bytes: one byte again and again, numbers filled up with leading zeros, and
/// random bytes.
fn every_length(run: &mut Run) {
    let frames = [
        ("", "1"),
        ("0x", "1"),
        ("1.", "377"),
        ("1.2.0x", "ff"),
        ("", "1/8"),
        ("1/", "8"),
        ("::", "1"),
    ];
    for length in 0..=80usize {
        let mut texts: Vec<Vec<u8>> = b"0129af.:/ x\0".map(|byte| vec![byte; length]).into();
        texts.extend(frames.iter().filter_map(|(head, tail)| {
            let zeros = length.checked_sub(head.len() + tail.len())?;
            Some(format!("{head}{}{tail}", "0".repeat(zeros)).into_bytes())
        }));
        for _ in 0..8 {
            texts.push(form_bytes(&mut run.judge.random, length));
            texts.push(any_bytes(&mut run.judge.random, length));
        }
        for text in texts {
            for case in readers(&text) {
                run.compare(&case, 16);
            }
        }
    }
}

fn every_room(run: &mut Run) {
    let mut cases: Vec<Case> = VALID_TEXTS
        .iter()
        .flat_map(|text| readers(text.as_bytes()))
        .collect();
    for (number, width) in [
        (0, 32),
        (u32::MAX.into(), 32),
        (0, 128),
        (u128::MAX, 128),
        (1 << 120, 128),
    ] {
        let address = octets(number, width);
        cases.push(Case::WriteAddress {
            address: address.clone(),
        });
        for size in [0, 1, 8, 9, 24, 25, 32, 127, 128] {
            let address = address.clone();
            cases.push(Case::WriteNetwork {
                address: address.clone(),
                size,
            });
            cases.push(Case::WriteBlock {
                address,
                length: size,
            });
        }
    }
    cases.extend([0, 32_768, 12_582_912].map(|network| Case::Join { network, host: 255 }));
    for case in cases {
        for room in 0..=MOST_ROOM {
            run.compare(&case, room);
        }
    }
}

/// Each of the eight groups zero or not, in all 256 ways, with wide and with narrow groups.
fn zero_group_patterns(run: &mut Run) {
    for pattern in 0..256 {
        for value in [1u128, 0xffff, 0xa0b] {
            let number = (0..8).fold(0, |number, group| {
                number << 16 | if pattern >> group & 1 == 0 { 0 } else { value }
            });
            let address = octets(number, 128);
            let write = Case::WriteAddress {
                address: address.clone(),
            };
            for room in 0..=MOST_ROOM {
                run.compare(&write, room);
            }
            for length in 0..=128 {
                let address = address.clone();
                run.compare(&Case::WriteBlock { address, length }, MOST_ROOM);
            }
        }
    }
}

/// Families, sizes and lengths from 0 to 300, and the largest numbers.
fn every_size(run: &mut Run) {
    let large = [1 << 8, 1 << 16, 1 << 31, u32::MAX - 1, u32::MAX];
    let addresses = [
        [0; 4].to_vec(),
        [255; 4].to_vec(),
        vec![10, 1, 2, 3],
        vec![0; 16],
        vec![255; 16],
    ];
    for number in (0..=300).chain(large) {
        for text in ["1.2.3.4", "::1", "", "x"] {
            let (text, family) = (text.into(), number);
            run.compare_tight(&Case::ReadAddress { text, family });
        }
        for text in ["0/", "255.255.255.255/", "0xff/", "::/", "ffff::/"] {
            for case in readers(format!("{text}{number}").as_bytes()) {
                run.compare_tight(&case);
            }
        }
        for address in addresses.clone() {
            run.compare_tight(&Case::WriteNetwork {
                address: address.clone(),
                size: number,
            });
            run.compare_tight(&Case::WriteBlock {
                address,
                length: number,
            });
        }
        run.compare_tight(&Case::RefusalText { number });
    }
}

/// Addresses of 0 to 20 bytes, of which only 4 and 16 are addresses.
fn every_byte_count(run: &mut Run) {
    for count in 0..=20 {
        let address = vec![7; count];
        run.compare_tight(&Case::WriteAddress {
            address: address.clone(),
        });
        run.compare_tight(&Case::Split {
            address: address.clone(),
        });
        for size in [0, 8, 32, 33, 128, 129] {
            run.compare_tight(&Case::WriteNetwork {
                address: address.clone(),
                size,
            });
            run.compare_tight(&Case::WriteBlock {
                address: address.clone(),
                length: size,
            });
        }
        for other in 0..=20 {
            for byte in [6, 7, 8] {
                let (first, last) = (address.clone(), vec![byte; other]);
                run.compare_tight(&Case::RangeBlocks { first, last });
            }
        }
    }
}

fn classes(run: &mut Run) {
    for top in 0..=255 {
        for rest in [[0, 0, 0], [255, 255, 255], [1, 2, 3]] {
            let address = [&[top], &rest[..]].concat();
            run.compare_tight(&Case::Split { address });
        }
    }
    let near = |edges: &[u32]| -> Vec<u32> {
        let around = |edge: &u32| [edge.wrapping_sub(2), edge.wrapping_sub(1), *edge, edge + 1];
        edges.iter().flat_map(around).collect()
    };
    for network in near(&CLASS_EDGES) {
        for host in near(&HOST_EDGES) {
            run.compare_tight(&Case::Join { network, host });
        }
    }
}

/// Every pair of addresses at and beside a power of two, the ends of the address space among them.
fn ranges(run: &mut Run) {
    for (width, step) in [(32, 3), (128, 15)] {
        let most = u128::MAX >> (128 - width);
        let mut edges: Vec<u128> = vec![0, 1, 2, 5, most / 3, most - 2, most - 1, most];
        for power in (1..width).step_by(step) {
            edges.extend([
                (1 << power) - 1,
                1 << power,
                (1 << power) + 1,
                most - (1 << power),
            ]);
        }
        for &first in &edges {
            for &last in &edges {
                let (first, last) = (octets(first, width), octets(last, width));
                range_rooms(run, &Case::RangeBlocks { first, last });
            }
        }
    }
    let (four, six) = (vec![0; 4], vec![0; 16]);
    run.compare_tight(&Case::RangeBlocks {
        first: four.clone(),
        last: six.clone(),
    });
    run.compare_tight(&Case::RangeBlocks {
        first: six,
        last: four,
    });
}

/// The exact need, one byte and one record to either side of it, and an empty buffer.
fn range_rooms(run: &mut Run, case: &Case) {
    let need = run.judge.need(case);
    for room in [
        0,
        need.saturating_sub(17),
        need.saturating_sub(5),
        need.saturating_sub(1),
        need,
        need + 1,
        need + 17,
    ] {
        run.compare(case, room);
    }
}

/// The words of the refusals are short, printable and all different, and are written whole or not
/// at all.
fn refusal_texts(run: &mut Run) {
    let mut texts = Vec::new();
    for number in 1..=10 {
        let case = Case::RefusalText { number };
        for room in 0..=REFUSAL_TEXT_ROOM + 8 {
            run.compare(&case, room);
        }
        let (_, text) = case.library_ample();
        let printable = text
            .iter()
            .all(|&byte| byte == b' ' || byte.is_ascii_graphic());
        let fits = (1..=REFUSAL_TEXT_ROOM).contains(&text.len());
        run.judge
            .expect(printable && fits && !texts.contains(&text), || {
                format!("{case}: unfit or repeated words")
            });
        texts.push(text);
    }
}
