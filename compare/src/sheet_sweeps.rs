//! Sheets gone through in order: every damage at every place, every byte, every number, every order,
//! every count of lines and bytes, every room.

use crate::case::Case;
use crate::generate::any_bytes;
use crate::rules::MALFORMED;
use crate::run::Run;
use crate::sheet_inputs::{Line, DAMAGES};
use crate::sheets::{MOST_BYTES, MOST_LINES};
use crate::sweeps::Sweep;

pub const SWEEPS: [Sweep; 8] = [
    damaged_lines,
    every_byte_everywhere,
    every_number,
    every_order,
    every_line_count,
    every_byte_count,
    every_room,
    every_way_to_ask,
];

/// One line of each kind, and a spelling of one again.
const LINES: [&str; 5] = [
    "10.0.0.12,7,650\n",
    "2001:DB8:0:0:1:0:0:1,412,1400\n",
    "::FFFF:204.152.189.116,999999,0\n",
    "2001:db8::1:0:0:1,413,1399\n",
    "255.255.255.255,100000,7\n",
];

fn calls(sheet: &[u8]) -> [Case; 2] {
    [0, 1].map(|sorted| Case::Respell {
        sheet: sheet.to_vec(),
        sorted,
    })
}

fn compare_tight(run: &mut Run, sheet: &[u8]) {
    for case in calls(sheet) {
        run.compare_tight(&case);
    }
}

/// Each damage of lines of both families, alone, and before, between and behind good lines.
fn damaged_lines(run: &mut Run) {
    for address in ["0.0.0.0", "192.0.2.7", "::", "2001:db8::7"] {
        for damage in DAMAGES {
            let line = damage(&Line::new(address, 31, 702));
            for sheet in [
                line.clone(),
                format!("{line}{}", LINES[0]),
                format!("{}{line}{}", LINES[0], LINES[1]),
                format!("{}{line}", LINES.concat()),
            ] {
                compare_tight(run, sheet.as_bytes());
                for case in calls(sheet.as_bytes()) {
                    let refusal = case.rules(&mut []).refusal;
                    run.judge.expect(refusal == MALFORMED, || {
                        format!("{case}: a damage that is none")
                    });
                }
            }
        }
    }
}

fn every_byte_everywhere(run: &mut Run) {
    let sheet = LINES[..3].concat().into_bytes();
    for place in 0..sheet.len() {
        for byte in 0..=255 {
            let mut sheet = sheet.clone();
            sheet[place] = byte;
            let sorted = u32::from(byte % 2);
            run.compare(&Case::Respell { sheet, sorted }, 120);
        }
    }
    for length in 0..=sheet.len() {
        compare_tight(run, &sheet[..length]);
        compare_tight(run, &sheet[length..]);
    }
}

/// Every pH up to a few too large, and volumes at every change of their digits, both with and without
/// zeros before them; numbers that too few bits would lose a part of; and every length.
fn every_number(run: &mut Run) {
    let powers = (0..=20).map(|digits| 10u128.pow(digits));
    let widths = [8, 16, 31, 32, 63, 64].map(|bits| 1u128 << bits);
    let near = powers
        .chain(widths)
        .flat_map(|number| [number - 1, number, number + 1, number + 7]);
    for number in (0..=1_500).chain(near) {
        for zeros in ["", "0", "00"] {
            for sheet in [
                format!("::1,{zeros}{number},7\n"),
                format!("::1,7,{zeros}{number}\n"),
            ] {
                let (sheet, sorted) = (sheet.into_bytes(), 0);
                run.compare(&Case::Respell { sheet, sorted }, 52);
            }
        }
    }
    for digit in ["0", "1", "9", "x"] {
        for length in 0..=30 {
            let number = digit.repeat(length);
            compare_tight(run, format!("::1,{number},7\n").as_bytes());
            compare_tight(run, format!("::1,7,{number}\n").as_bytes());
        }
    }
}

/// All orders of six lines, two of which have one address.
fn every_order(run: &mut Run) {
    let addresses = [
        "0.0.0.0",
        "255.255.255.255",
        "::",
        "::ffff:ffff",
        "0:0:0:1::",
        "::0:0.0.0.0",
    ];
    let lines: Vec<String> = (1..)
        .zip(addresses)
        .map(|(volume, address)| Line::new(address, volume, 0).text())
        .collect();
    for order in orders(lines.len()) {
        let sheet: String = order.into_iter().map(|place| &lines[place][..]).collect();
        compare_tight(run, sheet.as_bytes());
    }
}

/// All orders of the numbers below `count`.
fn orders(count: usize) -> Vec<Vec<usize>> {
    let Some(last) = count.checked_sub(1) else {
        return vec![vec![]];
    };
    let put_in = |order: Vec<usize>| {
        (0..=last).map(move |place| [&order[..place], &[last], &order[place..]].concat())
    };
    orders(last).into_iter().flat_map(put_in).collect()
}

/// Sheets from no line to a few more than a call takes, good and malformed, the last line finished or
/// not.
fn every_line_count(run: &mut Run) {
    let few = (0..=9).chain([31, 32, 33, 127, 128, 129, 255, 256, 257, 511, 512, 513]);
    for count in few.chain(MOST_LINES - 2..=MOST_LINES + 3) {
        for sheet in sheets_of(count) {
            for case in calls(&sheet) {
                run.compare_tight(&case);
            }
            let unfinished = &sheet[..sheet.len().saturating_sub(1)];
            for sheet in [unfinished, &[&sheet, &b"x"[..]].concat()] {
                for case in calls(sheet) {
                    run.judge.compare(&case, 64);
                }
            }
        }
    }
}

/// Sheets of so many lines: of one address, rising, falling, of both families in turn, as long as lines
/// can be, and malformed in the first, the last or every line.
fn sheets_of(count: usize) -> [Vec<u8>; 9] {
    let sheet = |line: &dyn Fn(usize) -> String| -> Vec<u8> {
        (0..count).map(line).collect::<String>().into_bytes()
    };
    let dotted = |n: usize| format!("10.0.{}.{}", n / 256, n % 256);
    let volume = |n: usize| 999_999 - n;
    let malformed = |n: usize, place: usize| match n == place {
        true => "::,0,0\n".to_string(),
        false => format!("::,{},0\n", volume(n)),
    };
    [
        sheet(&|n| format!("::1,{},{}\n", volume(n), n % 1_401)),
        sheet(&|n| format!("{},{},0\n", dotted(n), volume(n))),
        sheet(&|n| format!("{},{},0\n", dotted(count - n), volume(n))),
        sheet(&|n| format!("{:x}::,{},1400\n", count - n, volume(n))),
        sheet(&|n| match n % 2 {
            0 => format!("::{:x},{},1\n", n / 6, volume(n)),
            _ => format!("{},{},2\n", dotted(n / 6), volume(n)),
        }),
        sheet(&|n| {
            format!(
                "ffff:ffff:ffff:ffff:ffff:ffff:255.255.255.255,{},1400\n",
                volume(n)
            )
        }),
        sheet(&|n| malformed(n, 0)),
        sheet(&|n| malformed(n, count - 1)),
        sheet(&|_| "\n".to_string()),
    ]
}

/// Sheets of about the most bytes, by one byte again and again, by any bytes, and by good lines with a
/// long one before or behind them.
fn every_byte_count(run: &mut Run) {
    for length in MOST_BYTES - 2..=MOST_BYTES + 3 {
        let mut sheets: Vec<Vec<u8>> = b"0:,\n\r\0x".map(|byte| vec![byte; length]).into();
        sheets.push(any_bytes(&mut run.judge.random, length));
        for count in [1, MOST_LINES - 1, MOST_LINES] {
            let good = LINES[0].repeat(count).into_bytes();
            let long = b"0".repeat(length - good.len() - 1);
            sheets.push([&good[..], &long, b"\n"].concat());
            sheets.push([&long[..], b"\n", &good].concat());
            sheets.push([&good[..], &long, b"0"].concat());
        }
        let line = LINES[1].bytes().cycle();
        sheets.push(line.take(length).collect());
        for sheet in sheets {
            for case in calls(&sheet) {
                run.judge.compare(&case, 64);
            }
        }
    }
}

/// Every room for a few lines, and about the most that a sheet needs.
fn every_room(run: &mut Run) {
    let sheet = LINES.concat().into_bytes();
    for case in calls(&sheet) {
        for room in 0..=run.judge.need(&case) + 8 {
            run.compare(&case, room);
        }
    }
    let line = "ffff:ffff:ffff:ffff:ffff:ffff:ffff:ffff,999999,1400\n";
    let sheet = line.repeat(MOST_LINES).into_bytes();
    for case in calls(&sheet) {
        let need = run.judge.need(&case);
        let fills = need == case.ample_room() && need == sheet.len();
        run.judge
            .expect(fills, || "not the longest sheet".to_string());
        // by the sheet's own length, so that one which is refused is compared as well
        let full = sheet.len();
        for room in [
            0,
            51,
            52,
            53,
            full - 53,
            full - 52,
            full - 1,
            full,
            full + 1,
        ] {
            run.judge.compare(&case, room);
        }
    }
}

/// Every number but 0 asks for sorted lines.
fn every_way_to_ask(run: &mut Run) {
    let large = [8, 16, 24, 31].map(|bit| 1 << bit);
    for sorted in (0..=300).chain(large).chain([u32::MAX - 1, u32::MAX]) {
        for sheet in ["", "::2,1,0\n::1,1,0\n1.1.1.1,1,0\n", "::2,1,0\n::1"] {
            let sheet = sheet.into();
            run.compare_tight(&Case::Respell { sheet, sorted });
        }
    }
}
