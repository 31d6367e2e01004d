//! The C interface: the declarations in `raw` against the header, and C programs against stored
//! output.

use std::io::ErrorKind;
use std::mem::{align_of, offset_of, size_of};
use std::path::{Path, PathBuf};
use std::process::{Command, Output, Stdio};
use std::{env, fs};

use nibharrow::{raw, room, Refusal, LONGEST_SHEET, MOST_LINES, MOST_RECORDS};

/// Every warning is an error.
const STRICT: [&str; 4] = ["-Wall", "-Wextra", "-pedantic", "-Werror"];

/// A file of the project.
fn file(path: &str) -> PathBuf {
    Path::new(env!("CARGO_MANIFEST_DIR"))
        .join("../..")
        .join(path)
}

fn read(path: &str) -> String {
    fs::read_to_string(file(path)).unwrap_or_else(|error| panic!("{path}: {error}"))
}

/// What a program prints, once it has ended well.
fn stdout(output: Output) -> String {
    let errors = String::from_utf8_lossy(&output.stderr);
    assert!(output.status.success(), "{}\n{errors}", output.status);
    String::from_utf8(output.stdout).unwrap()
}

fn run(command: &mut Command) -> String {
    let output = command.output();
    stdout(output.unwrap_or_else(|error| panic!("{command:?}: {error}")))
}

/// Builds a C program and answers what it prints, given this input.
fn run_c_on(input: Stdio, source: &str, standard: &str) -> String {
    let program = Path::new(env!("CARGO_TARGET_TMPDIR")).join(file(source).file_stem().unwrap());
    let compiler = env::var_os("CC").unwrap_or("cc".into());
    run(Command::new(compiler)
        .arg(standard)
        .args(STRICT)
        .arg("-O2")
        .arg("-I")
        .arg(file("include"))
        .arg(file(source))
        .arg(env!("NIBHARROW_LIBRARY"))
        .arg("-o")
        .arg(&program));
    run(Command::new(program).stdin(input))
}

fn run_c(source: &str, standard: &str) -> String {
    run_c_on(Stdio::null(), source, standard)
}

fn field_size<T, F>(_: fn(&T) -> &F) -> usize {
    size_of::<F>()
}

/// The lines that `layout.c` prints of a type.
macro_rules! layout {
    ($name:literal, $type:ty, $($field:ident)*) => {{
        let own = format!("{} {} {}\n", $name, size_of::<$type>(), align_of::<$type>());
        own $(+ &format!(
            "{}.{} {} {}\n",
            $name,
            stringify!($field),
            offset_of!($type, $field),
            field_size(|answer: &$type| &answer.$field),
        ))*
    }};
}

fn layouts() -> String {
    [
        layout!("nibharrow_written", raw::Written, refusal bytes),
        layout!("nibharrow_network_read", raw::NetworkRead, refusal size bytes),
        layout!("nibharrow_network_host", raw::NetworkHost, refusal network host),
        layout!("nibharrow_block_read", raw::BlockRead, refusal length bytes),
        layout!("nibharrow_blocks_written", raw::BlocksWritten, refusal blocks bytes),
    ]
    .concat()
}

fn values() -> String {
    let values = [
        ("MOST_RECORDS", MOST_RECORDS),
        ("MOST_LINES", MOST_LINES),
        ("LONGEST_SHEET", LONGEST_SHEET),
        ("ADDRESS_ROOM", room::ADDRESS),
        ("TEXT_ROOM", room::TEXT),
        ("NETWORK_ROOM", room::NETWORK),
        ("NETWORK_TEXT_ROOM", room::NETWORK_TEXT),
        ("BLOCK_TEXT_ROOM", room::BLOCK_TEXT),
        ("RANGE_ROOM_4", room::RANGE_4),
        ("RANGE_ROOM_6", room::RANGE_6),
        ("GATHER_ROOM_4", room::GATHER_4),
        ("GATHER_ROOM_6", room::GATHER_6),
        ("UNCOVERED_ROOM_4", room::UNCOVERED_4),
        ("UNCOVERED_ROOM_6", room::UNCOVERED_6),
        ("SHEET_ROOM", room::SHEET),
        ("REFUSAL_TEXT_ROOM", room::REFUSAL_TEXT),
        ("TEXT_TOO_LONG", Refusal::TextTooLong as usize),
        ("MALFORMED", Refusal::Malformed as usize),
        ("NO_ROOM", Refusal::NoRoom as usize),
        ("LENGTH_TOO_LARGE", Refusal::LengthTooLarge as usize),
        ("BITS_BEYOND_LENGTH", Refusal::BitsBeyondLength as usize),
        ("NO_CLASS", Refusal::NoClass as usize),
        ("HOST_TOO_LARGE", Refusal::HostTooLarge as usize),
        ("FIRST_ABOVE_LAST", Refusal::FirstAboveLast as usize),
        ("WRONG_FAMILY", Refusal::WrongFamily as usize),
        ("TOO_MANY", Refusal::TooMany as usize),
    ];
    let line = |(name, value)| format!("NIBHARROW_{name} {value}\n");
    values.map(line).concat()
}

#[test]
fn types_and_constants_are_those_of_the_header() {
    let printed = run_c("bindings/rust/tests/c/layout.c", "-std=c11");
    assert_eq!(printed, layouts() + &values());
}

/// A text with each run of white space as one space.
fn single_spaced(text: &str) -> String {
    text.split_whitespace().collect::<Vec<_>>().join(" ")
}

/// A declaration of C in the notation of Rust, by a list of what to write for what.
fn translated(declaration: &str) -> String {
    let types = [
        ("const uint8_t *", "*const u8"),
        ("uint8_t *", "*mut u8"),
        ("size_t ", "usize"),
        ("uint32_t ", "u32"),
        ("nibharrow_written ", "Written"),
        ("nibharrow_network_read ", "NetworkRead"),
        ("nibharrow_network_host ", "NetworkHost"),
        ("nibharrow_block_read ", "BlockRead"),
        ("nibharrow_blocks_written ", "BlocksWritten"),
    ];
    // The type and the name that it stands before.
    let typed = |text: &str| {
        let found = types
            .iter()
            .find_map(|(c, rust)| Some((text.strip_prefix(c)?.to_owned(), *rust)));
        found.unwrap_or_else(|| panic!("a type that is not known: {text}"))
    };
    let (head, parameters) = declaration.trim_end_matches(')').split_once('(').unwrap();
    let (name, answer) = typed(head);
    let parameters: Vec<String> = parameters
        .split(", ")
        .map(typed)
        .map(|(name, kind)| format!("{name}: {kind}"))
        .collect();
    format!("{name}({}) -> {answer}", parameters.join(", "))
}

/// The functions that the header declares. Comments and directives declare nothing, and of the rest
/// only functions have a parenthesis.
fn functions_of_header() -> Vec<String> {
    let header = read("include/nibharrow.h");
    let mut code = String::new();
    for piece in header.split("/*") {
        code += piece.split_once("*/").map_or(piece, |(_, behind)| behind);
    }
    let lines: Vec<&str> = code.lines().filter(|line| !line.starts_with('#')).collect();
    let declarations = lines.join(" ");
    let functions = declarations
        .split(';')
        .filter(|declaration| declaration.contains('('));
    functions
        .map(|function| translated(&single_spaced(function)))
        .collect()
}

/// The functions that `raw` declares.
fn functions_of_raw() -> Vec<String> {
    let raw = read("bindings/rust/src/raw.rs");
    let (_, block) = raw.split_once("extern \"C\" {").unwrap();
    let functions = block
        .split(';')
        .filter_map(|item| Some(item.split_once("pub fn ")?.1));
    functions
        .map(|function| {
            single_spaced(function)
                .replace("( ", "(")
                .replace(", )", ")")
        })
        .collect()
}

#[test]
fn functions_are_those_of_the_header() {
    let functions = functions_of_header();
    assert_eq!(functions.len(), 14);
    assert_eq!(functions, functions_of_raw());
}

/// The library defines the functions of the header and nothing else, and needs two of the C library.
#[test]
fn symbols_are_those_that_the_guide_names() {
    let listed = run(Command::new("nm").arg("-g").arg(env!("NIBHARROW_LIBRARY")));
    let symbols = |needed: bool| -> Vec<&str> {
        let lines = listed.lines().map(|line| line.split_whitespace().rev());
        let named = lines.filter_map(|mut words| Some((words.next()?, words.next()?)));
        let asked = named.filter(|(_, kind)| (*kind == "U") == needed);
        asked.map(|(name, _)| name).collect()
    };
    assert_eq!(symbols(true), ["memcpy", "memset"]);
    let name = |function: String| function.split('(').next().unwrap().to_string();
    let mut functions: Vec<String> = functions_of_header().into_iter().map(name).collect();
    functions.sort();
    assert_eq!(symbols(false), functions);
}

#[test]
fn calls_of_c_alone_are_refused() {
    let printed = run_c("bindings/rust/tests/c/c_only.c", "-std=c99");
    assert_eq!(printed, read("bindings/rust/tests/c/c_only.out"));
}

#[test]
fn the_examples_print_what_is_stored() {
    for example in ["addresses", "lists"] {
        let printed = run_c(&format!("examples/{example}.c"), "-std=c99");
        assert_eq!(printed, read(&format!("examples/{example}.out")));
    }
    let sheet = fs::File::open(file("examples/sheet.csv")).unwrap();
    let printed = run_c_on(sheet.into(), "examples/sheet.c", "-std=c99");
    assert_eq!(printed, read("examples/sheet.out"));
}

/// Asks nothing where there is no C++ compiler: the library does not need one.
#[test]
fn the_header_is_cpp_too() {
    let mut command = Command::new(env::var_os("CXX").unwrap_or("g++".into()));
    command
        .arg("-std=c++11")
        .args(STRICT)
        .args(["-fsyntax-only", "-x", "c++"])
        .arg(file("include/nibharrow.h"));
    match command.output() {
        Err(error) if error.kind() == ErrorKind::NotFound => {}
        output => assert_eq!(stdout(output.unwrap()), ""),
    }
}
