//! Every help has an example, and the examples work on the files of the repository. The page docs/TOOL.md shows what is
//! printed; with VRBOLIST_STORE set its outputs are written anew.

mod common;

use common::{program, root, Bench};
use std::os::unix::fs::PermissionsExt;
use std::process::{Command, Output};

/// A folder with the program under its own name in `bin`.
fn bench(name: &str) -> Bench {
    let bench = Bench::new(name);
    std::fs::create_dir(bench.folder.join("bin")).unwrap();
    bench.write("bin/vrbolist", format!("#!/bin/sh\nexec {} \"$@\"\n", program().join(" ")).as_bytes());
    std::fs::set_permissions(bench.folder.join("bin/vrbolist"), PermissionsExt::from_mode(0o755)).unwrap();
    bench
}

fn shell(bench: &Bench, line: &str) -> Output {
    let path = format!("{}:{}", bench.folder.join("bin").display(), std::env::var("PATH").unwrap());
    Command::new("sh").args(["-c", line]).env("PATH", path).current_dir(&bench.folder).output().unwrap()
}

/// The lines of an example, those that go on behind a backslash joined.
fn examples(help: &str) -> Vec<String> {
    let behind = help.split_once("Example").map(|(_, rest)| rest).unwrap_or_default();
    let lines = behind.lines().filter(|line| line.starts_with("  ")).collect::<Vec<_>>().join("\n");
    lines.replace("\\\n", " ").lines().map(|line| line.trim().to_string()).collect()
}

#[test]
fn examples_work() {
    let bench = bench("help");
    let mut tried = 0;
    for command in [
        "", "item", "walk", "image", "pack", "unpack", "convert", "trim", "anchors", "chain", "propose", "days", "age",
        "tray",
        "demo",
    ] {
        let run = bench.status(&format!("{command} --help"), 0);
        assert!(run.out.lines().all(|line| line.chars().count() <= 100), "{}", run.out);
        for line in examples(&run.out) {
            let done = shell(&bench, &line);
            assert!(done.status.success(), "{line}\n{}", String::from_utf8_lossy(&done.stderr));
            tried += 1;
        }
    }
    assert!(tried >= 19, "{tried} examples");
}

/// The page with every output as it is printed now: a block of commands, each behind `$ `, and what they print.
fn printed(bench: &Bench, page: &str) -> (String, usize) {
    let mut out = String::new();
    let mut tried = 0;
    let mut lines = page.lines().peekable();
    let mut inside = false;
    while let Some(line) = lines.next() {
        inside = if line.starts_with("```") { line == "```console" } else { inside };
        let Some(first) = line.strip_prefix("$ ").filter(|_| inside) else {
            if !inside || line == "```console" {
                out += &format!("{line}\n");
            }
            continue;
        };
        let mut command = first.to_string();
        out += &format!("{line}\n");
        while command.ends_with('\\') {
            let more = lines.next().unwrap();
            out += &format!("{more}\n");
            command = format!("{}{more}", command.trim_end_matches('\\'));
        }
        let done = shell(bench, &command);
        out += &String::from_utf8_lossy(&done.stdout);
        out += &String::from_utf8_lossy(&done.stderr);
        tried += 1;
    }
    (out, tried)
}

#[test]
fn the_page_shows_what_is_printed() {
    let bench = bench("page");
    let path = root().join("docs/TOOL.md");
    let page = std::fs::read_to_string(&path).unwrap();
    let (now, tried) = printed(&bench, &page);
    if std::env::var_os("VRBOLIST_STORE").is_some() {
        std::fs::write(&path, &now).unwrap();
    } else {
        assert!(page == now, "docs/TOOL.md is not what is printed now");
    }
    assert!(tried > 15, "{tried} commands");
}
