//! The script `./nibharrow sheet` as it is called: what it writes, what it tells on standard error and
//! its status, where sheets, outputs and arguments are as they should be and where they are not.

mod calls;
mod scratch;

use calls::{in_pieces, interrupted, set_non_blocking, without_waiting};
use scratch::{Ended, Scratch};
use std::io::{self, Write};
use std::process::Stdio;
use std::sync::Once;
use std::thread;
use std::time::Duration;

const GOOD: &[u8] = b"2001:DB8:0:0::1,7,650\n10.0.0.2,8,710\n10.0.0.1,999999,1400\n10.0.0.2,1,0\n::FFFF:10.0.0.1,5,5\n";
const ANSWER: &str =
    "2001:db8::1,7,650\n10.0.0.2,8,710\n10.0.0.1,999999,1400\n10.0.0.2,1,0\n::ffff:a00:1,5,5\n";
const SORTED: &str =
    "10.0.0.1,999999,1400\n10.0.0.2,8,710\n10.0.0.2,1,0\n::ffff:a00:1,5,5\n2001:db8::1,7,650\n";

/// The words that the library has for the refusals of a sheet.
const TOO_LONG: &str = "1: the text is longer than the call takes";
const MALFORMED: &str = "2: the text or the bytes are not of the form asked for";
const TOO_MANY: &str = "10: there are more entries than the call takes";

const USAGE: &str = "\
usage: ./nibharrow ranges [-e | --explain] [--] [FILE ..]
       ./nibharrow sheet [-s | --sort] [-e | --explain] [--] [FILE]
       ./nibharrow --help
";

/// A folder of its own. The program is built before the first one, so that no test meets a build.
fn scratch(name: &str) -> Scratch {
    static BUILD: Once = Once::new();
    let scratch = Scratch::new(&format!("sheet_{name}"));
    BUILD.call_once(|| {
        let built = scratch.sh("nibharrow sheet < /dev/null 2> build");
        built.is("", "", 0);
    });
    scratch
}

/// As many lines as a sheet may have, each other than the rest and as long as a line may be, in rising order: 53,248 bytes.
fn largest() -> String {
    (0..1024)
        .map(|n| {
            format!(
                "fd00:1111:2222:3333:4444:5555:6666:{},999999,1400\n",
                7000 + n
            )
        })
        .collect()
}

/// A sheet that is refused writes nothing, and is told by its number, and on request with its line and the words, however it is
/// named and whether it was to be sorted.
#[track_caller]
fn assert_refused(scratch: &Scratch, sheet: &[u8], line: usize, words: &str) {
    scratch.file("sheet", sheet);
    let number = &words[..words.find(':').expect("a number")];
    for (name, words_and_input) in [
        ("sheet", "sheet"),
        ("(standard input)", "< sheet"),
        ("(standard input)", "- < sheet"),
    ] {
        let short = format!("{name}: refused {number}\n");
        let long = format!("{name}:{line}: refused {words}\n");
        for (options, told) in [
            ("", &short),
            ("-s", &short),
            ("-e", &long),
            ("-s -e", &long),
            ("-se", &long),
        ] {
            scratch
                .sh(&format!("nibharrow sheet {options} {words_and_input}"))
                .is("", told, 1);
        }
    }
}

// ---- good sheets

#[test]
fn file_and_standard_input_are_respelled() {
    let scratch = scratch("respelled");
    scratch.file("good", GOOD);
    scratch.file("-", b"::1,1,1\n");
    for words in [
        "good",
        "< good",
        "- < good",
        "-- good",
        "-- - < good",
        "-- < good",
        "./good",
        "-e good",
    ] {
        scratch
            .sh(&format!("nibharrow sheet {words}"))
            .is(ANSWER, "", 0);
    }
    // a file of that name has to be named otherwise
    scratch.sh("nibharrow sheet ./-").is("::1,1,1\n", "", 0);
    // the name of an option behind two dashes
    scratch.file("-s", GOOD);
    scratch.sh("nibharrow sheet -- -s").is(ANSWER, "", 0);
    scratch.sh("nibharrow sheet -s -- -s").is(SORTED, "", 0);
}

#[test]
fn empty_sheet_stays_empty() {
    let scratch = scratch("empty");
    scratch.file("empty", b"");
    for words in ["empty", "-s empty", "-e empty", "< empty", "- < empty"] {
        scratch
            .sh(&format!("nibharrow sheet {words}"))
            .is("", "", 0);
    }
}

#[test]
fn lines_are_sorted_on_request() {
    let scratch = scratch("sorted");
    scratch.file("good", GOOD);
    for words in [
        "-s good",
        "--sort good",
        "good -s",
        "good --sort",
        "-s -- good",
        "-s -s good",
        "-e -s good",
        "-s -e good",
        "-se good",
        "-es good",
        "good -se",
        "--explain good --sort",
        "-s < good",
        "-s - < good",
        "- -s < good",
    ] {
        scratch
            .sh(&format!("nibharrow sheet {words}"))
            .is(SORTED, "", 0);
    }
}

#[test]
fn largest_sheet_has_room() {
    let scratch = scratch("largest");
    scratch.file("largest", largest().as_bytes());
    assert_eq!(largest().len(), 53_248);
    for words in ["largest", "-s largest", "< largest"] {
        scratch
            .sh(&format!("nibharrow sheet {words}"))
            .is(&largest(), "", 0);
    }
}

#[test]
fn sheet_that_comes_in_small_pieces_is_read_whole() {
    let scratch = scratch("pieces");
    let (reader, mut writer) = io::pipe().expect("a pipe");
    let child = scratch
        .command("nibharrow sheet -s")
        .stdin(reader)
        .stdout(Stdio::piped())
        .stderr(Stdio::piped())
        .spawn()
        .expect("sh runs");
    for byte in GOOD {
        writer.write_all(&[*byte]).expect("a reader");
        thread::sleep(Duration::from_millis(1));
    }
    drop(writer);
    Ended::from(child.wait_with_output().expect("it ends")).is(SORTED, "", 0);
    // pieces that no line ends at
    scratch.file("largest", largest().as_bytes());
    scratch
        .sh("dd bs=997 status=none < largest | nibharrow sheet")
        .is(&largest(), "", 0);
}

// ---- refused sheets

#[test]
fn malformed_lines_are_told() {
    let scratch = scratch("malformed");
    for line in [
        "",
        " 10.0.0.1,1,0",
        "10.0.0.1,1,0 ",
        "10.0.0.1,1,0\r",
        "10.0.0.1, 1,0",
        "10.0.0.1,1",
        "10.0.0.1,1,0,",
        "10.0.0.1;1;0",
        "# a comment",
        "010.0.0.1,1,0",
        "10.0.0,1,0",
        ":::1,1,0",
        "10.0.0.1,0,0",
        "10.0.0.1,01,0",
        "10.0.0.1,1000000,0",
        "10.0.0.1,1,1401",
        "10.0.0.1,1,-1",
        "10.0.0.1,1,00",
        "10.0.0.1,,0",
        ",1,0",
        "10.0.0.1\0,1,0",
    ] {
        let good = "10.0.0.1,1,0\n";
        assert_refused(&scratch, format!("{line}\n{good}").as_bytes(), 1, MALFORMED);
        let third = format!("{good}{good}{line}\n{good}{line}\n");
        assert_refused(&scratch, third.as_bytes(), 3, MALFORMED);
    }
    let long = format!("{},1,0\n", "0".repeat(65));
    assert_refused(&scratch, long.as_bytes(), 1, MALFORMED);
}

#[test]
fn unfinished_last_line_is_malformed() {
    let scratch = scratch("unfinished");
    assert_refused(&scratch, b"10.0.0.1,1,0", 1, MALFORMED);
    assert_refused(&scratch, b"10.0.0.1,1,0\n10.0.0.2,1,0", 2, MALFORMED);
    // an earlier line is told first
    assert_refused(&scratch, b"x\n10.0.0.2,1,0", 1, MALFORMED);
}

#[test]
fn more_than_1024_lines_are_told_before_a_malformed_one() {
    let scratch = scratch("lines");
    let line = "10.0.0.1,1,0\n";
    let most = line.repeat(1024);
    scratch.file("most", most.as_bytes());
    scratch.sh("nibharrow sheet most").is(&most, "", 0);
    let more = line.repeat(1025);
    assert_refused(&scratch, more.as_bytes(), 1025, TOO_MANY);
    // an unfinished line counts
    let unfinished = format!("{most}1");
    assert_refused(&scratch, unfinished.as_bytes(), 1025, TOO_MANY);
    let malformed = format!("x\n{most}");
    assert_refused(&scratch, malformed.as_bytes(), 1025, TOO_MANY);
    // with 1,024 lines the malformed one is told
    let last = format!("{}x\n", line.repeat(1023));
    assert_refused(&scratch, last.as_bytes(), 1024, MALFORMED);
}

#[test]
fn more_than_65536_bytes_are_told_before_too_many_lines() {
    let scratch = scratch("bytes");
    assert_refused(&scratch, &[b'1'; 65_536], 1, MALFORMED);
    assert_refused(&scratch, &[b'1'; 65_537], 1, TOO_LONG);
    assert_refused(&scratch, &[b'\n'; 65_536], 1025, TOO_MANY);
    assert_refused(&scratch, &[b'\n'; 65_537], 65_537, TOO_LONG);
    // the line of the 65,537th byte, whatever stands behind it
    let mut sheet = vec![b'1'; 65_536];
    sheet[100] = b'\n';
    sheet[200] = b'\n';
    assert_refused(&scratch, &sheet, 1, MALFORMED);
    sheet.extend(b"\n\n\n\n");
    assert_refused(&scratch, &sheet, 3, TOO_LONG);
    sheet[65_535] = b'\n';
    assert_refused(&scratch, &sheet, 4, TOO_LONG);
    sheet.extend(GOOD.repeat(10_000));
    assert_refused(&scratch, &sheet, 4, TOO_LONG);
}

#[test]
fn input_that_never_ends_is_refused() {
    let scratch = scratch("endless");
    for (command, line) in [
        ("timeout 30 nibharrow sheet -e - < /dev/zero", 1),
        ("yes | timeout 30 nibharrow sheet -e", 32_769),
    ] {
        scratch.sh(command).is(
            "",
            &format!("(standard input):{line}: refused {TOO_LONG}\n"),
            1,
        );
    }
    scratch
        .sh("timeout 30 nibharrow sheet /dev/zero")
        .is("", "/dev/zero: refused 1\n", 1);
}

// ---- what cannot be read

#[test]
fn directory_is_told() {
    let scratch = scratch("directory");
    scratch
        .sh("nibharrow sheet < /")
        .is("", "nibharrow: (standard input): Is a directory\n", 2);
    scratch
        .sh("nibharrow sheet -e /")
        .is("", "nibharrow: /: Is a directory\n", 2);
}

#[test]
fn missing_file_is_told() {
    let scratch = scratch("missing");
    let told = "nibharrow: missing: No such file or directory\n";
    scratch.sh("nibharrow sheet missing").is("", told, 2);
    scratch.sh("nibharrow sheet -e -s missing").is("", told, 2);
    // the empty name is a name, which no file has
    scratch
        .sh("nibharrow sheet ''")
        .is("", "nibharrow: : No such file or directory\n", 2);
}

#[test]
fn name_that_is_too_long_is_told() {
    let scratch = scratch("long_name");
    let longest = "n".repeat(4096);
    let told = format!("nibharrow: {longest}: File name too long\n");
    scratch
        .sh(&format!("nibharrow sheet {longest}"))
        .is("", &told, 2);
    // of a longer name the first bytes are told
    scratch
        .sh(&format!("nibharrow sheet {longest}m"))
        .is("", &told, 2);
}

#[test]
fn note_on_the_longest_name_is_whole() {
    let scratch = scratch("long_note");
    scratch.file("bad", b"x\n");
    // a path of 4,095 bytes
    let name = format!("{}bad", "./".repeat(2046));
    assert_eq!(name.len(), 4095);
    scratch.sh(&format!("nibharrow sheet -e {name}")).is(
        "",
        &format!("{name}:1: refused {MALFORMED}\n"),
        1,
    );
}

#[test]
fn closed_input_is_told() {
    let scratch = scratch("closed_input");
    let told = "nibharrow: (standard input): Bad file descriptor\n";
    scratch.sh("nibharrow sheet <&-").is("", told, 2);
    scratch.sh("nibharrow sheet - <&-").is("", told, 2);
    // a file is opened under the number of the closed standard input, and is read all the same
    scratch.file("good", GOOD);
    scratch.sh("nibharrow sheet good <&-").is(ANSWER, "", 0);
}

#[test]
fn part_of_a_sheet_before_a_read_that_fails_is_not_answered() {
    let scratch = scratch("failed_read");
    for part in [GOOD, b"x\n", &GOOD[..30]] {
        let (reader, mut writer) = io::pipe().expect("a pipe");
        set_non_blocking(&reader);
        writer.write_all(part).expect("room in the pipe");
        let child = scratch
            .command("nibharrow sheet -e")
            .stdin(reader)
            .stdout(Stdio::piped())
            .stderr(Stdio::piped())
            .spawn()
            .expect("sh runs");
        let ended = Ended::from(child.wait_with_output().expect("it ends"));
        drop(writer);
        ended.is(
            "",
            "nibharrow: (standard input): Resource temporarily unavailable\n",
            2,
        );
    }
}

// ---- what cannot be written

#[test]
fn closed_output_is_told() {
    let scratch = scratch("closed_output");
    scratch.file("good", GOOD);
    scratch.file("bad", b"x\n");
    let told = "nibharrow: write error: Bad file descriptor\n";
    scratch.sh("nibharrow sheet good >&-").is("", told, 2);
    scratch.sh("nibharrow sheet < good >&-").is("", told, 2);
    scratch.sh("nibharrow sheet good <&- >&-").is("", told, 2);
    // a refused sheet has nothing to write there
    scratch
        .sh("nibharrow sheet bad >&-")
        .is("", "bad: refused 2\n", 1);
}

#[test]
fn closed_standard_error_keeps_a_good_status() {
    let scratch = scratch("closed_error");
    scratch.file("good", GOOD);
    scratch.file("bad", b"x\n");
    scratch.sh("nibharrow sheet good 2>&-").is(ANSWER, "", 0);
    scratch.sh("nibharrow sheet <&- >&- 2>&-").is("", "", 2);
    // a note that cannot be written is a failure
    scratch.sh("nibharrow sheet bad 2>&-").is("", "", 2);
    scratch
        .sh("nibharrow sheet -e bad 2> /dev/full")
        .is("", "", 2);
}

#[test]
fn full_device_is_told() {
    let scratch = scratch("full_device");
    scratch.file("good", GOOD);
    scratch.file("largest", largest().as_bytes());
    let told = "nibharrow: write error: No space left on device\n";
    for words in ["good", "-s good", "largest", "< largest"] {
        scratch
            .sh(&format!("nibharrow sheet {words} > /dev/full"))
            .is("", told, 2);
    }
    // nothing is written of an empty sheet
    scratch
        .sh("nibharrow sheet /dev/null > /dev/full")
        .is("", "", 0);
}

/// Runs the command with the end of a pipe that nobody reads as its standard output.
fn without_a_reader(scratch: &Scratch, command: &str) -> Ended {
    let (reader, writer) = io::pipe().expect("a pipe");
    drop(reader);
    let child = scratch
        .command(command)
        .stdout(writer)
        .stderr(Stdio::piped())
        .spawn()
        .expect("sh runs");
    Ended::from(child.wait_with_output().expect("it ends"))
}

#[test]
fn reader_that_has_gone_away_kills_the_program() {
    let scratch = scratch("reader_gone");
    scratch.file("good", GOOD);
    without_a_reader(&scratch, "nibharrow sheet good").is("", "", 141);
    let told = "nibharrow: write error: Broken pipe\n";
    without_a_reader(&scratch, "trap '' PIPE; nibharrow sheet good").is("", told, 2);
}

/// A pipe that is nearly full takes a part of the sheet.
#[test]
fn non_blocking_pipe_that_fills_is_told() {
    let scratch = scratch("non_blocking_output");
    scratch.file("largest", largest().as_bytes());
    let (reader, mut writer) = io::pipe().expect("a pipe");
    set_non_blocking(&writer);
    // all but some pages of the pipe
    while writer.write(&[b'x'; 4096]).is_ok() {}
    let mut reader = reader;
    let mut taken = [0; 8192];
    io::Read::read_exact(&mut reader, &mut taken).expect("what was written");
    let mut command = scratch.command("nibharrow sheet largest");
    let child = command
        .stdout(writer)
        .stderr(Stdio::piped())
        .spawn()
        .expect("sh runs");
    let ended = Ended::from(child.wait_with_output().expect("it ends"));
    drop(command);
    ended.is(
        "",
        "nibharrow: write error: Resource temporarily unavailable\n",
        2,
    );
    let mut arrived = Vec::new();
    io::Read::read_to_end(&mut reader, &mut arrived).expect("what was written");
    let sheet: Vec<u8> = arrived.into_iter().skip_while(|&b| b == b'x').collect();
    assert!(!sheet.is_empty() && sheet.len() < largest().len());
    assert_eq!(sheet, largest().as_bytes()[..sheet.len()]);
}

#[test]
fn interrupted_calls_are_made_again() {
    let scratch = scratch("interrupted");
    scratch.file("good", GOOD);
    scratch.file("bad", b"x\n");
    interrupted(&scratch, "sheet_main 3 -s good 3> status").is(SORTED, "", 0);
    assert_eq!(scratch.read("status"), b"0");
    // two reads, the write of the sheet and that of the status were each interrupted once
    assert_eq!(scratch.read("interrupted").len(), 4);
    interrupted(&scratch, "sheet_main 3 -e bad 3> status").is(
        "",
        &format!("bad:1: refused {MALFORMED}\n"),
        0,
    );
    assert_eq!(scratch.read("status"), b"1");
}

#[test]
fn calls_that_move_a_part_go_on_behind_it() {
    let scratch = scratch("parts");
    scratch.file("good", GOOD);
    scratch.file("bad", b"x\n");
    scratch.file("largest", largest().as_bytes());
    in_pieces(&scratch, "sheet_main 3 -s good 3> status").is(SORTED, "", 0);
    assert_eq!(scratch.read("status"), b"0");
    in_pieces(&scratch, "sheet_main 3 - largest 3> status").is(&largest(), "", 0);
    assert_eq!(scratch.read("status"), b"0");
    // it is loaded, and cuts short: each read does, and each write but the last
    assert!(scratch.read("pieces").len() > 53_248 / 3 + 53_248 / 7);
    in_pieces(&scratch, "sheet_main 3 -e bad 3> status").is(
        "",
        &format!("bad:1: refused {MALFORMED}\n"),
        0,
    );
    assert_eq!(scratch.read("status"), b"1");
}

// ---- arguments

#[test]
fn what_is_not_understood_is_told_without_waiting() {
    let scratch = scratch("not_understood");
    scratch.file("good", GOOD);
    for (words, told) in [
        ("good good", "sheet takes one FILE"),
        ("- -", "sheet takes one FILE"),
        ("good -s missing", "sheet takes one FILE"),
        ("-- good -s", "sheet takes one FILE"),
        ("--bogus", "sheet has no option --bogus"),
        ("-x", "sheet has no option -x"),
        ("-sx", "sheet has no option -sx"),
        ("good -S", "sheet has no option -S"),
        ("--sorted good", "sheet has no option --sorted"),
        ("---", "sheet has no option ---"),
    ] {
        without_waiting(&scratch, &format!("nibharrow sheet {words}")).is(
            "",
            &format!("nibharrow: {told}\n{USAGE}"),
            2,
        );
    }
}

#[test]
fn help_has_the_sheet_and_is_answered_without_waiting() {
    let scratch = scratch("help");
    let help = scratch.sh("nibharrow --help");
    assert_eq!((help.error.as_str(), help.status), ("", 0));
    let text = String::from_utf8(help.output).expect("plain text");
    assert!(text.starts_with(USAGE), "{text}");
    for word in [
        "--sort",
        "65536",
        "1024",
        "999999",
        "1400",
        "IPv4 before IPv6",
    ] {
        assert!(text.contains(word), "{word} is not in {text}");
    }
    for words in ["-h", "--help", "-s missing -h", "good good --help"] {
        without_waiting(&scratch, &format!("nibharrow sheet {words}")).is(&text, "", 0);
    }
}
