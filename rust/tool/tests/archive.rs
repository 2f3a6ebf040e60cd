//! `./vrbolist` makes the archive anew after every change of what it is made from, and only then. Both scripts run in a
//! folder of their own, with a stand-in for `rt` that counts how often it is asked, and one for cargo. The files there are named
//! `.txt`: `rt` wants each file of Rattle under the repository to be of a crate.

mod common;

use common::{root, Bench};
use std::os::unix::fs::PermissionsExt;
use std::process::{Command, Output};

const ARCHIVE: &str = "target/staticlib/libvrbolist.a";
const RT: &str = "#!/bin/sh
cd ../..
echo \"$*\" >>asked
[ ! -e broken ] || { echo 'fn walk: NOT PROVED' && exit 1; }
mkdir -p crates/vrbolist/out && cat crates/der/src/lib.txt >crates/vrbolist/out/libvrbolist.a
";
const CARGO: &str = "#!/bin/sh
[ \"$1\" != --runner ] || exit 0
folder=$(dirname \"$0\")/target/x86_64-unknown-linux-gnu/release
mkdir -p \"$folder\" && printf '#!/bin/sh\\necho ran \"$@\"\\n' >\"$folder/vrbolist\" && chmod +x \"$folder/vrbolist\"
";

fn script(bench: &Bench, name: &str, text: &[u8]) {
    bench.write(name, text);
    std::fs::set_permissions(bench.folder.join(name), PermissionsExt::from_mode(0o755)).unwrap();
}

/// A repository with one crate, the two scripts, and the stand-ins.
fn repository(name: &str) -> Bench {
    let bench = Bench::new(name);
    for folder in
        ["bin", "rust", "crates/vrbolist", "crates/der/src", "crates/der/specs", "crates/der/proofs/walk", "crates/der/must-fail"]
    {
        std::fs::create_dir_all(bench.folder.join(folder)).unwrap();
    }
    for (file, text) in [
        ("crates.txt", "der:\n"),
        ("crates/der/src/lib.txt", "fn walk() {}\n"),
        ("crates/der/specs/Lib.txt", "pub mod Walk\n"),
        ("crates/der/proofs/walk/Proof.txt", "-- It ends.\n"),
    ] {
        bench.write(file, text.as_bytes());
    }
    for name in ["vrbolist", "rust/archive"] {
        script(&bench, name, &std::fs::read(root().join(name)).unwrap());
    }
    script(&bench, "rust/cargo-x86", CARGO.as_bytes());
    script(&bench, "bin/rt", RT.as_bytes());
    bench
}

fn run(bench: &Bench) -> Output {
    let path = format!("{}:{}", bench.folder.join("bin").display(), std::env::var("PATH").unwrap());
    Command::new(bench.folder.join("vrbolist")).arg("demo").env("PATH", path).output().unwrap()
}

/// Runs the program, and tells how often `rt` was asked for it.
fn asked(bench: &Bench) -> usize {
    let lines = |bench: &Bench| std::fs::read_to_string(bench.folder.join("asked")).unwrap_or_default().lines().count();
    let before = lines(bench);
    let done = run(bench);
    assert!(done.status.success(), "{}", String::from_utf8_lossy(&done.stderr));
    assert_eq!(done.stdout, b"ran demo\n");
    lines(bench) - before
}

#[test]
fn made_once_and_after_each_change() {
    let bench = repository("archive-changes");
    assert_eq!((asked(&bench), asked(&bench)), (1, 0));
    for file in [
        "crates.txt",
        "crates/der/src/lib.txt",
        "crates/der/specs/Lib.txt",
        "crates/der/proofs/walk/Proof.txt",
        "crates/der/src/new.txt",
    ] {
        bench.write(file, b"changed\n");
        assert_eq!((asked(&bench), asked(&bench)), (1, 0), "{file}");
    }
    std::fs::remove_file(bench.folder.join("crates/der/src/new.txt")).unwrap();
    assert_eq!((asked(&bench), asked(&bench)), (1, 0), "a file that went");
    bench.write("crates/der/must-fail/walk.edit", b"file: src/lib.rt\n");
    assert_eq!(asked(&bench), 0, "an edit that must fail is no part of the archive");
}

#[test]
fn an_archive_that_another_made_is_made_anew() {
    let bench = repository("archive-of-another");
    assert_eq!(asked(&bench), 1);
    bench.write(ARCHIVE, b"made from something else");
    assert_eq!((asked(&bench), asked(&bench)), (1, 0));
    std::fs::remove_file(bench.folder.join("target/staticlib/made-from")).unwrap();
    assert_eq!((asked(&bench), asked(&bench)), (1, 0));
    std::fs::remove_file(bench.folder.join(ARCHIVE)).unwrap();
    assert_eq!((asked(&bench), asked(&bench)), (1, 0));
}

#[test]
fn a_library_that_is_not_proved_does_not_run() {
    let bench = repository("archive-not-proved");
    assert_eq!(asked(&bench), 1);
    bench.write("broken", b"");
    bench.write("crates/der/src/lib.txt", b"wrong\n");
    for _ in 0..2 {
        let done = run(&bench);
        assert_eq!(done.status.code(), Some(1));
        assert!(done.stdout.is_empty() && String::from_utf8_lossy(&done.stderr).contains("walk: NOT PROVED"));
    }
    std::fs::remove_file(bench.folder.join("broken")).unwrap();
    assert_eq!((asked(&bench), asked(&bench)), (1, 0));
}
