//! A folder of its own for a test, in which shell commands run with the script on their path.

use std::ffi::OsString;
use std::fs;
use std::os::unix::process::CommandExt;
use std::path::{Path, PathBuf};
use std::process::{Command, Output, Stdio};

unsafe extern "C" {
    fn signal(number: i32, handler: usize) -> usize;
}

/// What a signal does by default. The numbers are Linux's.
const SIG_DFL: usize = 0;
const SIGINT: i32 = 2;
const SIGXFSZ: i32 = 25;

pub struct Scratch(PathBuf);

/// What a command wrote to standard output and to standard error, and its status.
pub struct Ended {
    pub output: Vec<u8>,
    pub error: String,
    pub status: i32,
}

impl From<Output> for Ended {
    fn from(output: Output) -> Self {
        Self {
            output: output.stdout,
            error: String::from_utf8_lossy(&output.stderr).into_owned(),
            status: output.status.code().expect("a shell that ends by itself"),
        }
    }
}

impl Ended {
    #[track_caller]
    pub fn is(&self, output: &str, error: &str, status: i32) {
        let start = |text: &str| text.chars().take(2000).collect::<String>();
        let told = start(&self.error);
        assert!(self.error == error, "told:\n{told}\nnot:\n{}", start(error));
        let wrote = String::from_utf8_lossy(&self.output);
        assert!(
            self.output == output.as_bytes(),
            "wrote:\n{}\nnot:\n{}",
            start(&wrote),
            start(output)
        );
        assert_eq!(self.status, status, "told:\n{told}");
    }
}

/// A folder of a test that passed goes: rt takes no `crates.txt` below that of the project.
impl Drop for Scratch {
    fn drop(&mut self) {
        if !std::thread::panicking() {
            let _ = fs::remove_dir_all(&self.0);
        }
    }
}

impl Scratch {
    /// The folder of that name, empty.
    pub fn new(name: &str) -> Self {
        let path = Path::new(env!("CARGO_TARGET_TMPDIR")).join(name);
        if path.exists() {
            fs::remove_dir_all(&path).expect("a folder of an earlier run");
        }
        fs::create_dir_all(&path).expect("a new folder");
        Self(path)
    }

    pub fn path(&self, name: &str) -> PathBuf {
        self.0.join(name)
    }

    pub fn file(&self, name: &str, bytes: &[u8]) {
        fs::write(self.path(name), bytes).expect("a new file");
    }

    pub fn read(&self, name: &str) -> Vec<u8> {
        fs::read(self.path(name)).expect("a file")
    }

    /// A shell that is to run the command here. Rust has SIGPIPE ignored in itself, but not in what it
    /// runs; the other signals that tests send may be ignored in whatever runs the tests, as SIGINT is
    /// in the background of a shell.
    pub fn command(&self, command: &str) -> Command {
        let mut path = OsString::from(concat!(env!("CARGO_MANIFEST_DIR"), "/..:"));
        path.push(std::env::var_os("PATH").unwrap_or_default());
        let mut shell = Command::new("sh");
        shell
            .args(["-c", command])
            .current_dir(&self.0)
            .env("PATH", path)
            // the system's words in English
            .env("LC_ALL", "C")
            .stdin(Stdio::null());
        // SAFETY: signal is safe between fork and exec, and takes plain integers.
        unsafe {
            shell.pre_exec(|| {
                for number in [SIGINT, SIGXFSZ] {
                    signal(number, SIG_DFL);
                }
                Ok(())
            });
        }
        shell
    }

    pub fn sh(&self, command: &str) -> Ended {
        Ended::from(self.command(command).output().expect("sh runs"))
    }
}
