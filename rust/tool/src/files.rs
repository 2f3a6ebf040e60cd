//! Reading and writing files.

use crate::pem;
use crate::stop::Stop;
use crate::text::printable;
use std::ffi::OsStr;
use std::fs::{self, File, OpenOptions};
use std::io::{self, ErrorKind, Read, Write};
use std::path::{Path, PathBuf};

/// No more of a file is read: anything this long is refused for its length.
const MOST: u64 = 16 << 20;

pub fn shown(path: &OsStr) -> String {
    printable(&path.to_string_lossy())
}

/// A file; `-` is standard input. Of a long one no more is read than tells that it is too long.
pub fn read(path: &OsStr) -> Result<Vec<u8>, Stop> {
    read_to(path, MOST)
}

/// A whole file, however long it is.
pub fn read_all(path: &OsStr) -> Result<Vec<u8>, Stop> {
    read_to(path, u64::MAX)
}

fn read_to(path: &OsStr, most: u64) -> Result<Vec<u8>, Stop> {
    let mut bytes = Vec::new();
    let done = match path == "-" {
        true => io::stdin().lock().take(most).read_to_end(&mut bytes),
        false => File::open(path).and_then(|file| file.take(most).read_to_end(&mut bytes)),
    };
    match done {
        Ok(_) => Ok(bytes),
        Err(error) => Err(Stop::no_input(format!("{}: {}", shown(path), words(&error)))),
    }
}

fn words(error: &io::Error) -> String {
    match error.kind() {
        ErrorKind::NotFound => "there is no such file: check the path".to_string(),
        ErrorKind::PermissionDenied => "may not be read: check its permissions".to_string(),
        _ => format!("cannot be read: {error}"),
    }
}

/// An item as DER, and where it came from.
pub struct Item {
    pub bytes: Vec<u8>,
    pub form: String,
    pub note: Option<&'static str>,
}

/// DER as it stands, else the first PEM block.
pub fn read_item(path: &OsStr) -> Result<Item, Stop> {
    let bytes = read(path)?;
    let as_read = |bytes, note| Item { bytes, form: "DER".to_string(), note };
    if vrbolist::walk(&bytes).is_ok() {
        return Ok(as_read(bytes, None));
    }
    Ok(match pem::first(&bytes) {
        pem::Found::Nothing => as_read(bytes, None),
        pem::Found::Broken(note) => as_read(bytes, Some(note)),
        pem::Found::Block { label, bytes } => Item { bytes, form: format!("PEM {}", printable(&label)), note: None },
    })
}

/// Writes a file whole or not at all: a temporary file beside it, then a rename.
pub fn write(path: &Path, bytes: &[u8], force: bool) -> Result<(), Stop> {
    staged(path, bytes, force, &temporary())?.settle(force)
}

/// Writes two files: none is put in its place before both are written beside it.
pub fn write_both(files: [(&Path, &[u8]); 2], force: bool) -> Result<(), Stop> {
    let [(first, bytes), (second, more)] = files;
    let one = staged(first, bytes, force, &temporary())?;
    let two = staged(second, more, force, &format!("{}2", temporary()));
    match two {
        Err(stop) => {
            one.remove();
            Err(stop)
        }
        Ok(two) if two.place == one.place => {
            one.remove();
            two.remove();
            Err(Stop::usage(format!("{} is named twice: give two names", shown(first.as_os_str()))))
        }
        Ok(two) => match one.settle(force) {
            Err(stop) => {
                two.remove();
                Err(stop)
            }
            Ok(()) => two.settle(force),
        },
    }
}

/// A file that is written beside its place, and not yet put there.
struct Staged<'a> {
    path: &'a Path,
    beside: PathBuf,
    place: PathBuf,
}

fn staged<'a>(path: &'a Path, bytes: &[u8], force: bool, name: &str) -> Result<Staged<'a>, Stop> {
    let place = target(path, force)?;
    let folder = place.parent().filter(|p| !p.as_os_str().is_empty()).unwrap_or(Path::new("."));
    let beside = folder.join(name);
    let file = OpenOptions::new()
        .write(true)
        .create_new(true)
        .open(&beside)
        .map_err(|error| blocked(path, &beside, &error))?;
    let done = Staged { path, beside, place };
    match filled(file, bytes) {
        Ok(()) => Ok(done),
        Err(error) => {
            done.remove();
            Err(refused(path, &error))
        }
    }
}

impl Staged<'_> {
    fn settle(self, force: bool) -> Result<(), Stop> {
        moved(&self.beside, &self.place, force).map_err(|error| {
            self.remove();
            refused(self.path, &error)
        })
    }

    fn remove(&self) {
        let _ = fs::remove_file(&self.beside);
    }
}

fn temporary() -> String {
    format!(".vrbolist-{}.tmp", std::process::id())
}

fn target(path: &Path, force: bool) -> Result<PathBuf, Stop> {
    match fs::metadata(path) {
        Ok(found) if !found.is_file() => {
            Err(Stop::cannot_write(format!("{}: is no regular file: give another name", shown(path.as_os_str()))))
        }
        Ok(_) if !force => Err(refused(path, &ErrorKind::AlreadyExists.into())),
        Ok(_) => fs::canonicalize(path).map_err(|error| refused(path, &error)),
        Err(_) => Ok(path.to_path_buf()),
    }
}

fn refused(path: &Path, error: &io::Error) -> Stop {
    let why = match error.kind() {
        ErrorKind::AlreadyExists => "is there already: give another name or --force".to_string(),
        ErrorKind::NotFound => "cannot be written: its folder is not there; make it first".to_string(),
        _ => format!("cannot be written: {error}"),
    };
    Stop::cannot_write(format!("{}: {why}", shown(path.as_os_str())))
}

/// The temporary file cannot be made.
fn blocked(path: &Path, beside: &Path, error: &io::Error) -> Stop {
    match error.kind() {
        ErrorKind::AlreadyExists => {
            Stop::cannot_write(format!("{}: is in the way: remove it first", shown(beside.as_os_str())))
        }
        _ => refused(path, error),
    }
}

fn filled(mut file: File, bytes: &[u8]) -> io::Result<()> {
    file.write_all(bytes)?;
    file.sync_all()
}

/// Without force a link is made first, which fails where the name was taken in the meantime.
fn moved(from: &Path, to: &Path, force: bool) -> io::Result<()> {
    if force {
        return fs::rename(from, to);
    }
    match fs::hard_link(from, to) {
        Ok(()) => fs::remove_file(from),
        Err(error) if error.kind() == ErrorKind::AlreadyExists => Err(error),
        Err(_) if to.exists() => Err(ErrorKind::AlreadyExists.into()),
        Err(_) => fs::rename(from, to),
    }
}

/// Writes several files into a folder that is not there yet or is empty, all or none.
pub fn write_folder(folder: &Path, files: &[(String, &[u8])]) -> Result<(), Stop> {
    let parent = folder.parent().filter(|p| !p.as_os_str().is_empty()).unwrap_or(Path::new("."));
    let beside = parent.join(temporary());
    fs::create_dir(&beside).map_err(|error| blocked(folder, &beside, &error))?;
    let each = files.iter().try_for_each(|(name, bytes)| filled(File::create_new(beside.join(name))?, bytes));
    let done = each.and_then(|()| fs::rename(&beside, folder));
    if done.is_err() {
        let _ = fs::remove_dir_all(&beside);
    }
    done.map_err(|error| taken(folder, &error))
}

fn taken(folder: &Path, error: &io::Error) -> Stop {
    match folder.exists() {
        true => Stop::cannot_write(format!(
            "{}: is there already: give another name, or --force to write into it",
            shown(folder.as_os_str())
        )),
        false => refused(folder, error),
    }
}
