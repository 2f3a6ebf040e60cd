//! Runs the built program in a folder of its own, where `tests` leads to the stored items.

#![allow(dead_code)]

pub mod json;

use std::path::{Path, PathBuf};
use std::process::{Command, Stdio};

pub const MADE: &str = "tests/data/made";

pub struct Bench {
    pub folder: PathBuf,
}

pub struct Run {
    /// `None` where a signal ended the program.
    pub status: Option<i32>,
    pub out: String,
    pub err: String,
}

pub fn root() -> PathBuf {
    Path::new(env!("CARGO_MANIFEST_DIR")).join("../..")
}

/// The program, behind the emulator where there is one.
pub fn program() -> Vec<String> {
    let runner = std::env::var("CARGO_TARGET_X86_64_UNKNOWN_LINUX_GNU_RUNNER").unwrap_or_default();
    let mut words: Vec<String> = runner.split_whitespace().map(str::to_string).collect();
    words.push(env!("CARGO_BIN_EXE_vrbolist").to_string());
    words
}

/// The folder goes with the test that made it, but for one that fails: `rt` would take a `crates.txt` in it for a repository.
impl Drop for Bench {
    fn drop(&mut self) {
        if !std::thread::panicking() {
            let _ = std::fs::remove_dir_all(&self.folder);
        }
    }
}

impl Bench {
    pub fn new(name: &str) -> Bench {
        let folder = Path::new(env!("CARGO_TARGET_TMPDIR")).join(name);
        let _ = std::fs::remove_dir_all(&folder);
        std::fs::create_dir_all(&folder).unwrap();
        std::os::unix::fs::symlink(root().canonicalize().unwrap().join("tests"), folder.join("tests")).unwrap();
        Bench { folder }
    }

    pub fn write(&self, name: &str, bytes: &[u8]) {
        std::fs::write(self.folder.join(name), bytes).unwrap();
    }

    pub fn read(&self, name: &str) -> Vec<u8> {
        std::fs::read(self.folder.join(name)).unwrap()
    }

    pub fn command<S: AsRef<std::ffi::OsStr>>(&self, words: &[S]) -> Command {
        let program = program();
        let mut command = Command::new(&program[0]);
        command.args(&program[1..]).args(words).current_dir(&self.folder).stdin(Stdio::null());
        command
    }

    pub fn run<S: AsRef<std::ffi::OsStr>>(&self, words: &[S]) -> Run {
        let output = self.command(words).output().unwrap();
        Run {
            status: output.status.code(),
            out: String::from_utf8_lossy(&output.stdout).into_owned(),
            err: String::from_utf8_lossy(&output.stderr).into_owned(),
        }
    }

    /// The words of a line, with spaces between them.
    pub fn line(&self, line: &str) -> Run {
        self.run(&line.split_whitespace().collect::<Vec<_>>())
    }

    pub fn status(&self, line: &str, wanted: i32) -> Run {
        let run = self.line(line);
        assert_eq!(run.status, Some(wanted), "{line}\n{}{}", run.out, run.err);
        run
    }

    /// Packs an image of the made set as `NAME.image`, and writes its table as text.
    pub fn pack(&self, name: &str) -> Run {
        let rows = std::fs::read_to_string(root().join(MADE).join("places.tsv")).unwrap();
        let rows: Vec<Vec<&str>> = rows.lines().map(|row| row.split('\t').collect()).collect();
        let mut line = format!("pack {name}.image");
        for row in rows.iter().filter(|row| row[0] == name) {
            let option = match (row[3], row[4]) {
                ("1", "1") => "anchor",
                ("1", _) => "disabled-anchor",
                ("2", _) => "link",
                ("3", _) => "signer",
                _ => "crl",
            };
            line += &format!(" --{option} {MADE}/{}", row[5]);
        }
        line += &format!(" --day {}", rows.iter().find(|row| row[0] == name).unwrap()[1]);
        self.write(&format!("{name}.table"), table(name).as_bytes());
        self.status(&line, 0)
    }
}

/// The table of an image of the made set, as lines of digits.
pub fn table(name: &str) -> String {
    let rows = std::fs::read_to_string(root().join(MADE).join("verdicts.tsv")).unwrap();
    let rows = rows.lines().map(|row| row.split('\t').collect::<Vec<_>>());
    rows.filter(|row| row[0] == name).map(|row| format!("{}\n", row[2])).collect()
}

/// Base64 in lines of 64.
pub fn pem(label: &str, bytes: &[u8]) -> String {
    const DIGITS: &[u8] = b"ABCDEFGHIJKLMNOPQRSTUVWXYZabcdefghijklmnopqrstuvwxyz0123456789+/";
    let mut digits = String::new();
    for three in bytes.chunks(3) {
        let joined = three.iter().chain(&[0, 0]).take(3).fold(0u32, |sum, b| sum << 8 | u32::from(*b));
        for place in 0..4 {
            let digit = DIGITS[(joined >> (18 - 6 * place) & 63) as usize] as char;
            digits.push(if place <= three.len() { digit } else { '=' });
        }
    }
    let lines: Vec<&str> = (0..digits.len()).step_by(64).map(|at| &digits[at..(at + 64).min(digits.len())]).collect();
    format!("-----BEGIN {label}-----\n{}\n-----END {label}-----\n", lines.join("\n"))
}
