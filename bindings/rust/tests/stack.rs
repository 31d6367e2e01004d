//! The largest inputs on small stacks: a call that takes more than there is ends the test by a signal.

use nibharrow::*;
use std::thread;

/// Makes calls on a thread that has a stack of so many KiB, its own frames and its guard page among them.
fn on_stack<T: Send + 'static>(kib: usize, calls: impl FnOnce() -> T + Send + 'static) -> T {
    let thread = thread::Builder::new().stack_size(kib << 10);
    thread
        .spawn(calls)
        .expect("a thread")
        .join()
        .expect("an end")
}

/// As many lines as a sheet may have, falling and as long as a line may be.
fn falling_sheet() -> String {
    (0..MOST_LINES)
        .rev()
        .map(|n| {
            let group = 0x1000 + n;
            format!("{group:x}:1111:2222:3333:4444:5555:6666:7777,999999,1400\n")
        })
        .collect()
}

#[test]
fn sheet_takes_less_than_256_kib() {
    let sheet = falling_sheet();
    let mut rising: Vec<&str> = sheet.split_inclusive('\n').collect();
    rising.reverse();
    let (rising, as_given) = (rising.concat(), sheet.clone());
    let [sorted, unsorted, unfinished] = on_stack(256, move || {
        let unfinished = &sheet[..sheet.len() - 1];
        [(&sheet[..], true), (&sheet, false), (unfinished, true)].map(|(sheet, sorted)| {
            let mut out = vec![0; room::SHEET];
            let written = respell_into(sheet, sorted, &mut out)?.len();
            out.truncate(written);
            Ok(out)
        })
    });
    assert_eq!(sorted, Ok(rising.into_bytes()));
    assert_eq!(unsorted, Ok(as_given.into_bytes()));
    assert_eq!(unfinished, Err(Refusal::Malformed));
}

#[test]
fn list_takes_less_than_80_kib() {
    for (family, octets, room) in [
        (Family::V4, 4, room::UNCOVERED_4),
        (Family::V6, 16, room::UNCOVERED_6),
    ] {
        // every second address, falling
        let mut list = Vec::new();
        for n in (0..MOST_RECORDS as u128).rev() {
            list.extend(&(2 * n).to_be_bytes()[16 - octets..]);
            list.push(8 * octets as u8);
        }
        let [gathered, uncovered] = on_stack(80, move || {
            let mut out = vec![0; room];
            let gathered = gather_records(family, &list, &mut out).map(|r| r.blocks().len());
            let uncovered = uncovered_records(family, &list, &mut out).map(|r| r.blocks().len());
            [gathered, uncovered]
        });
        assert_eq!(gathered, Ok(MOST_RECORDS));
        // each address between two, and what follows the last
        assert_eq!(uncovered, Ok(MOST_RECORDS - 1 + 8 * octets - 9));
    }
}
