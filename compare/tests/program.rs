//! The script `./nibharrow` as it is called: what it writes, what it tells on standard error and its
//! status, where inputs, outputs and arguments are as they should be and where they are not.

mod calls;
mod scratch;

use calls::{in_pieces, interrupted, set_non_blocking, without_waiting};
use scratch::{Ended, Scratch};
use std::io::{self, Read, Write};
use std::process::Stdio;
use std::sync::Once;

const GOOD: &[u8] = b"10.0.0.1 10.0.0.6\n::1 ::1\n";
const GOOD_ANSWER: &str = "10.0.0.1/32\n10.0.0.2/31\n10.0.0.4/31\n10.0.0.6/32\n::1/128\n";

/// The words that the library has for the refusals of a line.
const WORDS: [(&str, &str); 4] = [
    ("1", "the text is longer than the call takes"),
    ("2", "the text or the bytes are not of the form asked for"),
    ("8", "the first address is above the last"),
    (
        "9",
        "the address family is unknown, mixed or not meant here",
    ),
];

const USAGE: &str = "\
usage: ./nibharrow ranges [-e | --explain] [--] [FILE ..]
       ./nibharrow sheet [-s | --sort] [-e | --explain] [--] [FILE]
       ./nibharrow --help
";

/// A folder of its own. The program is built before the first one, so that no test meets a build.
fn scratch(name: &str) -> Scratch {
    static BUILD: Once = Once::new();
    let scratch = Scratch::new(name);
    BUILD.call_once(|| {
        let built = scratch.sh("nibharrow ranges < /dev/null 2> build");
        built.is("", "", 0);
    });
    scratch
}

const LINES: usize = 100_000;

/// More lines, and more bytes of answers, than any pipe and any buffer of the program holds.
fn many_lines() -> Vec<u8> {
    GOOD.repeat(LINES / 2)
}

fn many_answers() -> String {
    GOOD_ANSWER.repeat(LINES / 2)
}

#[test]
fn standard_input_is_answered() {
    let scratch = scratch("standard_input");
    scratch.file("good", GOOD);
    scratch.sh("nibharrow ranges < good").is(GOOD_ANSWER, "", 0);
    scratch.sh("nibharrow ranges < /dev/null").is("", "", 0);
}

#[test]
fn large_input_is_answered_whole() {
    let scratch = scratch("large_input");
    scratch.file("many", &many_lines());
    scratch
        .sh("nibharrow ranges many")
        .is(&many_answers(), "", 0);
    scratch
        .sh("nibharrow ranges < many")
        .is(&many_answers(), "", 0);
}

#[test]
fn empty_file_writes_nothing() {
    let scratch = scratch("empty_file");
    scratch.file("empty", b"");
    scratch.sh("nibharrow ranges empty").is("", "", 0);
    scratch.sh("nibharrow ranges -e empty").is("", "", 0);
}

#[test]
fn directory_is_told() {
    let scratch = scratch("directory");
    scratch
        .sh("nibharrow ranges < /")
        .is("", "nibharrow: (standard input): Is a directory\n", 2);
    scratch
        .sh("nibharrow ranges /")
        .is("", "nibharrow: /: Is a directory\n", 2);
}

#[test]
fn closed_input_is_told() {
    let scratch = scratch("closed_input");
    let told = "nibharrow: (standard input): Bad file descriptor\n";
    scratch.sh("nibharrow ranges <&-").is("", told, 2);
    scratch.sh("nibharrow ranges - <&-").is("", told, 2);
    // a file is opened under the number of the closed standard input, and is read all the same
    scratch.file("good", GOOD);
    scratch
        .sh("nibharrow ranges good <&-")
        .is(GOOD_ANSWER, "", 0);
    scratch
        .sh("nibharrow ranges good - <&-")
        .is(GOOD_ANSWER, told, 2);
}

#[test]
fn closed_output_is_told() {
    let scratch = scratch("closed_output");
    scratch.file("good", GOOD);
    let told = "nibharrow: write error: Bad file descriptor\n";
    scratch.sh("nibharrow ranges < good >&-").is("", told, 2);
    scratch.sh("nibharrow ranges good >&-").is("", told, 2);
    scratch.sh("nibharrow ranges good <&- >&-").is("", told, 2);
}

#[test]
fn closed_standard_error_keeps_the_status() {
    let scratch = scratch("closed_error");
    scratch.file("good", GOOD);
    scratch.file("bad", b"x\n");
    scratch
        .sh("nibharrow ranges good 2>&-")
        .is(GOOD_ANSWER, "", 0);
    scratch
        .sh("nibharrow ranges bad 2>&-")
        .is("refused 2\n", "", 1);
    scratch.sh("nibharrow ranges <&- >&- 2>&-").is("", "", 2);
    // notes that were asked for and cannot be written are a failure
    scratch
        .sh("nibharrow ranges -e bad 2>&-")
        .is("refused 2\n", "", 2);
}

#[test]
fn full_device_is_told() {
    let scratch = scratch("full_device");
    scratch.file("good", GOOD);
    scratch.file("many", &many_lines());
    let told = "nibharrow: write error: No space left on device\n";
    scratch
        .sh("nibharrow ranges good > /dev/full")
        .is("", told, 2);
    // told once, however much there would be to write
    scratch
        .sh("nibharrow ranges many good < many > /dev/full")
        .is("", told, 2);
}

/// Runs the command with the end of a pipe as its standard output, of which a little is read.
fn with_reader_that_goes_away(scratch: &Scratch, command: &str) -> Ended {
    let (mut reader, writer) = io::pipe().expect("a pipe");
    let child = scratch
        .command(command)
        .stdout(writer)
        .stderr(Stdio::piped())
        .spawn()
        .expect("sh runs");
    let mut output = [0; 20];
    reader.read_exact(&mut output).expect("some output");
    drop(reader);
    let mut ended = Ended::from(child.wait_with_output().expect("it ends"));
    ended.output = output.to_vec();
    ended
}

#[test]
fn reader_that_goes_away_kills_the_program() {
    let scratch = scratch("reader_gone");
    scratch.file("many", &many_lines());
    with_reader_that_goes_away(&scratch, "nibharrow ranges many").is(&GOOD_ANSWER[..20], "", 141);
}

#[test]
fn reader_that_goes_away_is_told_where_the_signal_is_ignored() {
    let scratch = scratch("reader_gone_ignored");
    scratch.file("many", &many_lines());
    with_reader_that_goes_away(&scratch, "trap '' PIPE; nibharrow ranges many").is(
        &GOOD_ANSWER[..20],
        "nibharrow: write error: Broken pipe\n",
        2,
    );
}

#[test]
fn non_blocking_pipe_that_fills_is_told() {
    let scratch = scratch("non_blocking_output");
    scratch.file("many", &many_lines());
    let (mut reader, writer) = io::pipe().expect("a pipe");
    set_non_blocking(&writer);
    let mut command = scratch.command("nibharrow ranges many");
    let child = command
        .stdout(writer)
        .stderr(Stdio::piped())
        .spawn()
        .expect("sh runs");
    // nothing is read before the program has ended, so that the pipe fills
    let mut ended = Ended::from(child.wait_with_output().expect("it ends"));
    // the command holds the last end for writing
    drop(command);
    reader
        .read_to_end(&mut ended.output)
        .expect("what was written");
    let arrived = ended.output.len();
    assert!(arrived > 0 && arrived < many_answers().len(), "{arrived}");
    ended.is(
        &many_answers()[..arrived],
        "nibharrow: write error: Resource temporarily unavailable\n",
        2,
    );
}

#[test]
fn read_that_fails_in_the_middle_is_told_behind_the_answers() {
    let scratch = scratch("non_blocking_input");
    let (reader, mut writer) = io::pipe().expect("a pipe");
    set_non_blocking(&reader);
    // the line that is begun may go on, so it is no line yet
    writer.write_all(GOOD).expect("room in the pipe");
    writer.write_all(b"10.0.0.1 10").expect("room in the pipe");
    scratch.file("good", GOOD);
    let child = scratch
        .command("nibharrow ranges - good")
        .stdin(reader)
        .stdout(Stdio::piped())
        .stderr(Stdio::piped())
        .spawn()
        .expect("sh runs");
    let ended = Ended::from(child.wait_with_output().expect("it ends"));
    drop(writer);
    ended.is(
        &GOOD_ANSWER.repeat(2),
        "nibharrow: (standard input): Resource temporarily unavailable\n",
        2,
    );
}

/// What is in the file `out` is a beginning of the right answers.
fn assert_cut_short(scratch: &Scratch) {
    let written = scratch.read("out");
    let answers = many_answers();
    assert!(!written.is_empty() && written.len() < answers.len());
    assert_eq!(written, answers.as_bytes()[..written.len()]);
}

#[test]
fn file_limit_kills_the_program() {
    let scratch = scratch("file_limit");
    scratch.file("many", &many_lines());
    let ended = scratch.sh("ulimit -c 0; ulimit -f 100; nibharrow ranges many > out");
    assert_cut_short(&scratch);
    // some shells say what killed the program
    let told = if ended.error.is_empty() {
        ""
    } else {
        "File size limit exceeded\n"
    };
    ended.is("", told, 153);
}

#[test]
fn file_limit_is_told_where_the_signal_is_ignored() {
    let scratch = scratch("file_limit_ignored");
    scratch.file("many", &many_lines());
    let ended = scratch.sh("trap '' XFSZ; ulimit -f 100; nibharrow ranges many > out");
    assert_cut_short(&scratch);
    ended.is("", "nibharrow: write error: File too large\n", 2);
}

#[test]
fn missing_file_is_told_and_the_others_are_answered() {
    let scratch = scratch("missing_file");
    scratch.file("good", GOOD);
    let told = "nibharrow: missing: No such file or directory\n";
    scratch.sh("nibharrow ranges missing").is("", told, 2);
    scratch
        .sh("nibharrow ranges missing good")
        .is(GOOD_ANSWER, told, 2);
    scratch
        .sh("nibharrow ranges good missing")
        .is(GOOD_ANSWER, told, 2);
    // the empty name is a name, which no file has
    scratch
        .sh("nibharrow ranges ''")
        .is("", "nibharrow: : No such file or directory\n", 2);
}

#[test]
fn unreadable_file_among_others_is_told() {
    let scratch = scratch("unreadable_file");
    scratch.file("good", GOOD);
    scratch.file("bad", b"x\n");
    scratch.sh("nibharrow ranges -e bad / good").is(
        &format!("refused 2\n{GOOD_ANSWER}"),
        &format!(
            "bad:1: refused 2: {}\nnibharrow: /: Is a directory\n",
            WORDS[1].1
        ),
        2,
    );
}

#[test]
fn name_that_is_too_long_is_told() {
    let scratch = scratch("long_name");
    scratch.file("good", GOOD);
    let longest = "n".repeat(4096);
    let told = format!("nibharrow: {longest}: File name too long\n");
    scratch
        .sh(&format!("nibharrow ranges {longest} good"))
        .is(GOOD_ANSWER, &told, 2);
    // of a longer name the first bytes are told
    scratch
        .sh(&format!("nibharrow ranges {longest}m good"))
        .is(GOOD_ANSWER, &told, 2);
}

#[test]
fn files_are_answered_each_by_itself() {
    let scratch = scratch("two_files");
    // neither the last line of the first file nor its line numbers go on in the second
    scratch.file("one", b"x\n10.0.0.1");
    scratch.file("two", b" 10.0.0.6\n::2 ::1\n10.0.0.1 10.0.0.1");
    let [malformed, above] = [WORDS[1].1, WORDS[2].1];
    scratch.sh("nibharrow ranges -e one two").is(
        "refused 2\nrefused 2\nrefused 2\nrefused 8\n10.0.0.1/32\n",
        &format!(
            "one:1: refused 2: {malformed}\none:2: refused 2: {malformed}\n\
             two:1: refused 2: {malformed}\ntwo:2: refused 8: {above}\n"
        ),
        1,
    );
}

#[test]
fn status_is_the_worst_of_all_lines() {
    let scratch = scratch("worst_status");
    scratch.file("good", GOOD);
    scratch.file("bad", b"x\n");
    let refused = "refused 2\n";
    let both = format!("{refused}{GOOD_ANSWER}");
    scratch.sh("nibharrow ranges bad good").is(&both, "", 1);
    let both = format!("{GOOD_ANSWER}{refused}");
    scratch.sh("nibharrow ranges good bad").is(&both, "", 1);
    // as a condition of the shell
    scratch
        .sh("if nibharrow ranges bad; then echo all; else echo some; fi")
        .is("refused 2\nsome\n", "", 0);
}

#[test]
fn dash_is_standard_input() {
    let scratch = scratch("dash");
    scratch.file("good", GOOD);
    scratch.file("bad", b"x\n");
    let told = format!("(standard input):1: refused 2: {}\n", WORDS[1].1);
    scratch.sh("nibharrow ranges -e good - < bad").is(
        &format!("{GOOD_ANSWER}refused 2\n"),
        &told,
        1,
    );
    // a second time it is at its end
    scratch
        .sh("nibharrow ranges -e - - < bad")
        .is("refused 2\n", &told, 1);
}

#[test]
fn words_behind_two_dashes_are_files() {
    let scratch = scratch("two_dashes");
    scratch.file("-e", GOOD);
    scratch.file("--help", b"::2 ::2\n");
    scratch.file("--", b"::3 ::3\n");
    scratch.sh("nibharrow ranges -- -e --help --").is(
        &format!("{GOOD_ANSWER}::2/128\n::3/128\n"),
        "",
        0,
    );
    scratch
        .sh("nibharrow ranges -- - < -e")
        .is(GOOD_ANSWER, "", 0);
    scratch
        .sh("nibharrow ranges -- < -e")
        .is(GOOD_ANSWER, "", 0);
}

#[test]
fn explain_is_taken_in_both_forms_and_behind_a_file() {
    let scratch = scratch("explain_forms");
    scratch.file("bad", b"::2 ::1\n");
    let told = format!("bad:1: refused 8: {}\n", WORDS[2].1);
    for command in ["-e bad", "--explain bad", "bad -e", "-e -e -- bad"] {
        scratch
            .sh(&format!("nibharrow ranges {command}"))
            .is("refused 8\n", &told, 1);
    }
}

#[test]
fn what_is_not_understood_is_told_without_waiting() {
    let scratch = scratch("not_understood");
    for (words, told) in [
        ("", "there is nothing to do"),
        ("bogus", "bogus is unknown"),
        ("--bogus", "--bogus is unknown"),
        ("-e ranges", "-e is unknown"),
        ("ranges --bogus", "ranges has no option --bogus"),
        ("ranges -x", "ranges has no option -x"),
        ("ranges -ex", "ranges has no option -ex"),
        ("ranges - -x", "ranges has no option -x"),
    ] {
        without_waiting(&scratch, &format!("nibharrow {words}")).is(
            "",
            &format!("nibharrow: {told}\n{USAGE}"),
            2,
        );
    }
}

#[test]
fn help_is_answered_without_waiting() {
    let scratch = scratch("help");
    let help = without_waiting(&scratch, "nibharrow --help");
    assert_eq!((help.error.as_str(), help.status), ("", 0));
    let text = String::from_utf8(help.output).expect("plain text");
    assert!(text.starts_with(USAGE), "{text}");
    for word in ["FILE", "--explain", "Status: 0", "carriage returns", "tabs"] {
        assert!(text.contains(word), "{word} is not in {text}");
    }
    for words in ["-h", "ranges --help", "ranges -h", "ranges -e missing -h"] {
        without_waiting(&scratch, &format!("nibharrow {words}")).is(&text, "", 0);
    }
    let unwritten = scratch.sh("nibharrow --help > /dev/full");
    assert_eq!(unwritten.status, 2);
}

/// Lines of any bytes, none of which is a range: some are empty, and some longer than the buffers.
fn garbage() -> Vec<u8> {
    let mut state = 1u32;
    let mut garbage: Vec<u8> = (0..300_000)
        .map(|_| {
            state = state.wrapping_mul(1_664_525).wrapping_add(1_013_904_223);
            (state >> 24) as u8
        })
        .collect();
    garbage.extend(b"\n\n\n");
    garbage.extend([b'1'; 200_000]);
    garbage.extend(b"\n::2 ::1\n::1 1.1.1.1\nlast");
    garbage
}

#[test]
fn garbage_is_refused_line_by_line() {
    let scratch = scratch("garbage");
    scratch.file("garbage", &garbage());
    let silent = scratch.sh("nibharrow ranges garbage");
    let explained = scratch.sh("nibharrow ranges -e garbage");
    let output = String::from_utf8(silent.output.clone()).expect("plain text");
    assert_eq!(
        output.lines().count(),
        garbage().split(|&b| b == b'\n').count()
    );
    silent.is(&output, "", 1);
    let notes: String = output
        .lines()
        .enumerate()
        .map(|(index, line)| {
            let number = line.strip_prefix("refused ").expect("a refusal");
            let words = WORDS.iter().find(|words| words.0 == number);
            let words = words.expect("a refusal of a line").1;
            format!("garbage:{}: refused {number}: {words}\n", index + 1)
        })
        .collect();
    for (number, _) in WORDS {
        assert!(output.contains(&format!("refused {number}\n")), "{number}");
    }
    explained.is(&output, &notes, 1);
}

#[test]
fn nothing_is_skipped_or_trimmed() {
    let scratch = scratch("other_forms");
    let lines: [&[u8]; 9] = [
        b"10.0.0.1 10.0.0.6\r",
        b"10.0.0.1\t10.0.0.6",
        b"# a comment",
        b"10.0.0.1 10.0.0.6 # a comment",
        b"",
        b"10.0.0.1-10.0.0.6",
        b"10.0.0.1 - 10.0.0.6",
        b" 10.0.0.1 10.0.0.6",
        b"10.0.0.1 10.0.0.6 ",
    ];
    scratch.file("forms", &[&lines.join(&b'\n'), &b"\n"[..]].concat());
    let notes: String = (1..=lines.len())
        .map(|line| format!("forms:{line}: refused 2: {}\n", WORDS[1].1))
        .collect();
    scratch
        .sh("nibharrow ranges -e forms")
        .is(&"refused 2\n".repeat(lines.len()), &notes, 1);
}

#[test]
fn recipes_of_the_help_make_lines_of_other_forms_ranges() {
    let scratch = scratch("recipes");
    for (form, recipe) in [
        ("10.0.0.1 10.0.0.6\r\n::1 ::1\r\n", r"tr -d '\r' < FILE"),
        ("10.0.0.1\t10.0.0.6\n::1\t::1\n", r"tr '\t' ' ' < FILE"),
        ("10.0.0.1-10.0.0.6\n::1 - ::1\n", "sed 's/ *- */ /' FILE"),
        (
            "# one\n10.0.0.1 10.0.0.6\n#\n::1 ::1\n",
            "grep -v '^#' FILE",
        ),
        ("\n10.0.0.1 10.0.0.6\n\n::1 ::1\n", "grep . FILE"),
    ] {
        let help = scratch.sh("nibharrow --help");
        let text = String::from_utf8(help.output).expect("plain text");
        let recipe = format!("{recipe} | ./nibharrow ranges");
        assert!(text.contains(&recipe), "{recipe} is not in {text}");
        scratch.file("FILE", form.as_bytes());
        scratch
            .sh(&recipe.replace("./nibharrow", "nibharrow"))
            .is(GOOD_ANSWER, "", 0);
    }
}

#[test]
fn interrupted_calls_are_made_again() {
    let scratch = scratch("interrupted");
    scratch.file("many", &many_lines());
    scratch.file("bad", b"x\n");
    let ended = interrupted(&scratch, "range_main 3 -e many bad 3> status");
    ended.is(
        &format!("{}refused 2\n", many_answers()),
        &format!("bad:1: refused 2: {}\n", WORDS[1].1),
        0,
    );
    assert_eq!(scratch.read("status"), b"1");
    // it is loaded, and interrupts: each read and write leaves a mark
    assert!(scratch.read("interrupted").len() > 50);
}

#[test]
fn calls_that_move_a_part_go_on_behind_it() {
    let scratch = scratch("parts");
    let lines: String = (0..256)
        .map(|n| format!("10.0.{n}.7 10.0.{n}.8\n"))
        .collect();
    let answers: String = (0..256)
        .map(|n| format!("10.0.{n}.7/32\n10.0.{n}.8/32\n"))
        .collect();
    scratch.file("lines", lines.as_bytes());
    scratch.file("bad", b"x\n");
    in_pieces(&scratch, "range_main 3 -e lines bad 3> status").is(
        &format!("{answers}refused 2\n"),
        &format!("bad:1: refused 2: {}\n", WORDS[1].1),
        0,
    );
    assert_eq!(scratch.read("status"), b"1");
    // it is loaded, and cuts short: each read does, and each write but the last of a text
    assert!(scratch.read("pieces").len() > lines.len() / 3 + answers.len() / 14);
}
