//! When the script `./nibharrow` builds a program, what it says then, and how it ends with the
//! program's status. The project is a small one with a stand-in for `rt`, and the program a few lines
//! of shell.

mod scratch;

use scratch::Scratch;
use std::fs;
use std::os::unix::fs::PermissionsExt;

/// Answers its input, and tells the status 0.
const PROGRAM: &str = r#"#!/bin/sh
cat
printf 0 >&"$1"
"#;

/// Proves a crate, of which one is unchanged, and writes the program. It reads its standard input,
/// which must not be that of the program.
const RT: &str = r#"#!/bin/sh
cat >>../../read
case "$1 $PWD" in
'lib '*/notation) ;;
'lib '*/digits | 'lib '*/range_lines)
    echo "crate ${PWD##*/}: modules loaded=3 checked=0"
    echo "logic=proved functions=1" >&2
    ;;
'run '*/range_main)
    mkdir -p out && cp ../../program out/range_main && chmod +x out/range_main
    echo "rt: running out/range_main"
    ;;
*) exit 1 ;;
esac
"#;

const BUILT: &str = "\
nibharrow: building range_main, which proves it too: this takes some minutes the first time
nibharrow: proved crate 2 of 4: digits
nibharrow: proved crate 3 of 4: range_lines
nibharrow: proved crate 4 of 4: range_main
";

/// The tools that the script and the stand-in call.
const TOOLS: [&str; 13] = [
    "awk", "cat", "chmod", "cp", "dirname", "find", "mkdir", "mv", "readlink", "rm", "sh", "tail",
    "touch",
];

/// A project with the script, sources that are old, and a stand-in for `rt` in `bin`.
fn project(name: &str, rt: &str) -> Scratch {
    let scratch = Scratch::new(name);
    scratch.file(
        "crates.txt",
        b"notation:\nunused: notation\ndigits: notation\nrange_lines: digits notation\nrange_main: io digits range_lines\n",
    );
    scratch.file("program", PROGRAM.as_bytes());
    let prepared =
        scratch.sh("mkdir -p crates/digits/src crates/notation crates/range_lines crates/range_main bin tools && echo x > crates/digits/src/lib.rt");
    prepared.is("", "", 0);
    scratch.file("bin/rt", rt.as_bytes());
    let script = concat!(env!("CARGO_MANIFEST_DIR"), "/../nibharrow");
    fs::copy(script, scratch.path("nibharrow")).expect("the script");
    for name in ["bin/rt", "nibharrow"] {
        let executable = fs::Permissions::from_mode(0o755);
        fs::set_permissions(scratch.path(name), executable).expect("own file");
    }
    for tool in TOOLS {
        let link = format!("ln -s \"$(command -v {tool})\" tools/{tool}");
        scratch.sh(&link).is("", "", 0);
    }
    scratch
        .sh("find crates crates.txt -exec touch -t 202001010000 {} +")
        .is("", "", 0);
    scratch
}

/// Runs the script on a line of input with the stand-in for `rt`.
const RUN: &str = "echo line | PATH=$PWD/bin:$PWD/tools ./nibharrow ranges";

#[test]
fn first_use_builds() {
    let project = project("first_use", RT);
    project.sh(RUN).is("line\n", BUILT, 0);
    project.sh(RUN).is("line\n", "", 0);
    assert_eq!(project.read("read"), b"", "the build read the input");
    let log = String::from_utf8(project.read("target/build.log")).expect("plain text");
    assert!(log.starts_with("crate digits: modules loaded=3"), "{log}");
    assert!(log.ends_with("rt: running out/range_main\n"), "{log}");
}

#[test]
fn newer_source_is_built_once() {
    let project = project("newer_source", RT);
    project.sh(RUN).is("line\n", BUILT, 0);
    for change in [
        "touch crates/digits/src/lib.rt",
        "touch crates.txt",
        "echo x > crates/digits/src/more.rt",
        "rm crates/digits/src/more.rt",
        "rm target/bin/range_main crates/range_main/out/range_main",
    ] {
        project.sh(change).is("", "", 0);
        project.sh(RUN).is("line\n", BUILT, 0);
        project.sh(RUN).is("line\n", "", 0);
    }
}

#[test]
fn program_that_rt_built_by_hand_is_taken() {
    let project = project("built_by_hand", RT);
    let by_hand = "(cd crates/range_main && ../../bin/rt run > ../../log 2>&1)";
    project.sh(&format!("{by_hand} < /dev/null")).is("", "", 0);
    project.sh(RUN).is("line\n", "", 0);
    project.sh("touch crates.txt").is("", "", 0);
    project.sh(RUN).is("line\n", BUILT, 0);
    // and so is one that is newer than what the script has built
    project.sh("touch crates.txt && sleep 0.05").is("", "", 0);
    project.sh(&format!("{by_hand} < /dev/null")).is("", "", 0);
    project.sh(RUN).is("line\n", "", 0);
    project.sh("touch crates.txt").is("", "", 0);
    project.sh(RUN).is("line\n", BUILT, 0);
}

#[test]
fn source_that_is_altered_during_the_build_is_newer() {
    let project = project("altered_during", &format!("{RT}touch ../../crates.txt\n"));
    project.sh(RUN).is("line\n", BUILT, 0);
    project.sh(RUN).is("line\n", BUILT, 0);
}

#[test]
fn missing_rt_is_named() {
    let project = project("missing_rt", RT);
    project
        .sh("echo line | PATH=$PWD/tools ./nibharrow ranges")
        .is(
            "",
            "nibharrow: range_main has to be built, and there is no rt on the path\n\
             nibharrow: rt is the command of the Rattle kit, which proves and builds the program\n",
            2,
        );
    // a program that is built needs no rt
    project.sh(RUN).is("line\n", BUILT, 0);
    project
        .sh("echo line | PATH=$PWD/tools ./nibharrow ranges")
        .is("line\n", "", 0);
}

#[test]
fn failed_build_is_told_with_the_end_of_its_log() {
    let refused = "#!/bin/sh\necho early\nseq -f 'line %g' 8\necho 'rt: digits NOT PROVED (exit 1, 2 s)'\necho 'rt: FAILED: digits'\nexit 1\n";
    let project = project("failed_build", refused);
    let run = "echo line | PATH=$PWD/bin:$PATH ./nibharrow ranges";
    let lines: String = (1..=8).map(|line| format!("line {line}\n")).collect();
    let told = format!(
        "{}nibharrow: range_main is not built; the last lines of target/build.log:\n\
         {lines}rt: digits NOT PROVED (exit 1, 2 s)\nrt: FAILED: digits\n",
        &BUILT[..=BUILT.find('\n').expect("a line")]
    );
    project.sh(run).is("", &told, 2);
    // a program that an earlier build has left is not run
    project
        .sh("mkdir -p target/bin && cp program target/bin/range_main && chmod +x target/bin/range_main && sleep 0.05 && touch crates.txt")
        .is("", "", 0);
    project.sh(run).is("", &told, 2);
}

#[test]
fn program_that_rt_does_not_write_is_told() {
    let project = project("no_program", "#!/bin/sh\ntrue\n");
    let told = format!(
        "{}nibharrow: rt calls range_main proved, and there is no crates/range_main/out/range_main: remove crates/range_main/out and try again\n",
        &BUILT[..=BUILT.find('\n').expect("a line")]
    );
    project.sh(RUN).is("", &told, 2);
}

#[test]
fn script_is_found_through_a_link_and_from_another_folder() {
    let project = project("through_link", RT);
    project
        .sh("mkdir away && ln -s ../nibharrow away/link")
        .is("", "", 0);
    project
        .sh("echo line | { PATH=$PWD/bin:$PWD/tools; cd away && ./link ranges; }")
        .is("line\n", BUILT, 0);
}

#[test]
fn status_is_the_digit_or_that_of_a_killed_program_or_2() {
    let project = project("digits", RT);
    project.sh(RUN).is("line\n", BUILT, 0);
    for (program, status) in [
        ("printf 0 >&\"$1\"", 0),
        ("printf 1 >&\"$1\"", 1),
        ("printf 2 >&\"$1\"", 2),
        ("printf 0 >&\"$1\"; exit 7", 0),
        ("printf 01 >&\"$1\"", 2),
        ("printf 3 >&\"$1\"", 2),
        ("true", 2),
        ("exit 1", 2),
        ("kill -PIPE $$", 141),
        ("printf 0 >&\"$1\"; kill -INT $$", 130),
    ] {
        let text = format!("#!/bin/sh\n{program}\n");
        project.file("target/bin/range_main", text.as_bytes());
        let ended = project.sh(RUN);
        assert_eq!(ended.status, status, "{program}");
        ended.is("", "", status);
    }
}

#[test]
fn arguments_reach_the_program_as_they_are() {
    let project = project("arguments", RT);
    project.sh(RUN).is("line\n", BUILT, 0);
    let shows = "#!/bin/sh\nprintf '<%s>' \"$@\"\nprintf 0 >&\"$1\"\n";
    project.file("target/bin/range_main", shows.as_bytes());
    for (words, shown) in [
        ("", "<9><->"),
        ("-e", "<9><-e>"),
        ("a 'b  c' '*' ''", "<9><-><a><b  c><*><>"),
        ("a -e - -- -e --", "<9><-e><a><-><-e><-->"),
    ] {
        project
            .sh(&format!("PATH=$PWD/tools ./nibharrow ranges {words}"))
            .is(shown, "", 0);
    }
}

#[test]
fn arguments_of_a_sheet_reach_the_program_as_they_are() {
    let project = project("sheet_arguments", RT);
    project.sh("mkdir -p target/bin").is("", "", 0);
    let shows = "#!/bin/sh\nprintf '<%s>' \"$@\"\nprintf 0 >&\"$1\"\n";
    project.file("target/bin/sheet_main", shows.as_bytes());
    project.sh("chmod +x target/bin/sheet_main").is("", "", 0);
    for (words, shown) in [
        ("", "<9><->"),
        ("-s", "<9><-s>"),
        ("-e", "<9><-e>"),
        ("-e --sort -s --explain", "<9><-se>"),
        ("'b  c' -s", "<9><-s><b  c>"),
        ("- -e", "<9><-e><->"),
        ("-s -- -e", "<9><-s><-e>"),
        ("-- --", "<9><-><-->"),
        ("''", "<9><-><>"),
        ("'*'", "<9><-><*>"),
    ] {
        project
            .sh(&format!("PATH=$PWD/tools ./nibharrow sheet {words}"))
            .is(shown, "", 0);
    }
}
