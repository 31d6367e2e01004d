//! Inputs that wait, and calls of the system that fail.

use crate::scratch::{Ended, Scratch};
use std::io;
use std::os::fd::AsRawFd;
use std::process::{Command, Stdio};

unsafe extern "C" {
    fn fcntl(descriptor: i32, command: i32, ...) -> i32;
}

/// Has calls on the end of a pipe fail where they would wait. The numbers are Linux's.
pub fn set_non_blocking(end: &impl AsRawFd) {
    const F_GETFL: i32 = 3;
    const F_SETFL: i32 = 4;
    const O_NONBLOCK: i32 = 0o4000;
    // SAFETY: both commands take and answer plain integers, and the descriptor is open.
    let set = unsafe {
        let flags = fcntl(end.as_raw_fd(), F_GETFL);
        fcntl(end.as_raw_fd(), F_SETFL, flags | O_NONBLOCK)
    };
    assert_eq!(set, 0, "fcntl: {}", io::Error::last_os_error());
}

/// Runs the command with a standard input that never ends. `timeout` answers 124 for one that waits.
pub fn without_waiting(scratch: &Scratch, command: &str) -> Ended {
    let (reader, writer) = io::pipe().expect("a pipe");
    let child = scratch
        .command(&format!("timeout 30 {command}"))
        .stdin(reader)
        .stdout(Stdio::piped())
        .stderr(Stdio::piped())
        .spawn()
        .expect("sh runs");
    let ended = Ended::from(child.wait_with_output().expect("it ends"));
    drop(writer);
    ended
}

/// Runs a program of `target/bin` by itself, since the calls of the shell would be met as well, with the C file compiled as a
/// library that is loaded before the C library.
fn preloaded(scratch: &Scratch, library: &str, command: &str) -> Ended {
    let source = format!("{}/tests/{library}.c", env!("CARGO_MANIFEST_DIR"));
    let preload = scratch.path(&format!("{library}.so"));
    let compiler = std::env::var_os("CC").unwrap_or("cc".into());
    let compiled = Command::new(compiler)
        .args(["-shared", "-fPIC", "-o"])
        .arg(&preload)
        .arg(source)
        .status();
    assert!(compiled.expect("a C compiler").success());
    let preload = preload.to_str().expect("a plain path");
    let programs = concat!(env!("CARGO_MANIFEST_DIR"), "/../target/bin");
    scratch.sh(&format!("LD_PRELOAD='{preload}' '{programs}'/{command}"))
}

/// Runs a program with every second of its reads and writes interrupted.
pub fn interrupted(scratch: &Scratch, command: &str) -> Ended {
    preloaded(scratch, "interrupt", command)
}

/// Runs a program with reads that bring at most 3 bytes, and writes that take at most 7.
pub fn in_pieces(scratch: &Scratch, command: &str) -> Ended {
    preloaded(scratch, "pieces", command)
}
