//! `vrbolist`: asks the proved library about files and explains its answers.
//!
//! Every verdict is the library's. What the program adds is reading files, words, and JSON.

#![forbid(unsafe_code)]

mod answer;
mod args;
mod cause;
mod commands;
mod engine;
mod explain;
mod facts;
mod fault;
mod files;
mod json;
mod letters;
mod names;
mod oids;
mod pem;
mod places;
mod reasons;
mod stop;
mod strings;
mod table;
mod text;
mod tray;
mod tree;

use std::ffi::OsString;
use std::process::ExitCode;

fn main() -> ExitCode {
    let words: Vec<OsString> = std::env::args_os().skip(1).collect();
    ExitCode::from(commands::run(&words))
}
