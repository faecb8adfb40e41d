//! Desks in files: written whole or not at all, and taken back only if they are admitted. Add this
//! file beside those that it uses, as `mod sheetdesk; mod sheetdesk_places; mod sheetdesk_why;
//! mod sheetdesk_format; mod sheetdesk_file;`. `docs/FORMAT.md` says what a file holds. Outside of
//! what is proved.
//!
//!     let mut words = sheetdesk_file::load("tower.desk")?;
//!     sheetdesk::Desk::lend(&mut words).fetch(0, 1);
//!     sheetdesk_file::save("tower.desk", &words)?;
#![allow(dead_code)]

use super::sheetdesk_format::{pack, unpack, Fault, MOST};
use std::fs::{self, File, OpenOptions};
use std::io::{self, ErrorKind, Read, Write};
use std::os::unix::fs::{MetadataExt, OpenOptionsExt};
use std::os::unix::io::AsRawFd;
use std::path::{Path, PathBuf};
use std::time::{Duration, Instant};

/// Takes a desk back: its words, to be lent.
pub fn load(path: impl AsRef<Path>) -> Result<Vec<u32>, Fault> {
    unpack(&read(path.as_ref())?)
}

/// All bytes of a file, which is a regular one.
pub fn read(path: &Path) -> Result<Vec<u8>, Fault> {
    let mut options = OpenOptions::new();
    let file = options.read(true).custom_flags(NOT_BLOCKING).open(path).map_err(Fault::Unread)?;
    let about = file.metadata().map_err(Fault::Unread)?;
    if !about.is_file() {
        return Err(Fault::Unread(irregular()));
    }
    if about.len() > MOST {
        return Err(Fault::TooLarge(about.len()));
    }
    let mut bytes = Vec::new();
    file.take(MOST).read_to_end(&mut bytes).map_err(Fault::Unread)?;
    Ok(bytes)
}

fn irregular() -> io::Error {
    io::Error::new(ErrorKind::InvalidInput, "it isn't a regular file")
}

/// Saves a desk that is admitted: a new file beside the old one, written whole, on the disk, given
/// the name, and the folder on the disk.
pub fn save(path: impl AsRef<Path>, words: &[u32]) -> Result<(), Fault> {
    let bytes = pack(words)?;
    let name = real(path.as_ref()).map_err(Fault::Unsaved)?;
    let beside = behind(&name, ".new");
    replace(&name, &beside, &bytes).map_err(Fault::Unsaved)?;
    synced(&name).map_err(Fault::Unsynced)
}

fn replace(name: &Path, beside: &Path, bytes: &[u8]) -> io::Result<()> {
    let old = fs::metadata(name).ok();
    if old.as_ref().map_or(false, |old| !old.is_file()) {
        return Err(irregular());
    }
    if old.is_some() {
        OpenOptions::new().append(true).open(name)?;
    }
    let file = open_new(beside)?;
    let written = file
        .set_len(0)
        .and_then(|_| old.map_or(Ok(()), |old| file.set_permissions(old.permissions())))
        .and_then(|_| (&file).write_all(bytes))
        .and_then(|_| file.sync_all())
        .and_then(|_| fs::rename(beside, name));
    if written.is_err() {
        let _ = fs::remove_file(beside);
    }
    written
}

// Of the C library and <fcntl.h>, <sys/file.h> on Linux.
const NO_FOLLOW: i32 = 0o400_000;
const NOT_BLOCKING: i32 = 0o4_000;
const EXCLUSIVE: i32 = 2;
const NOT_WAITING: i32 = 4;

extern "C" {
    fn flock(file: i32, operation: i32) -> i32;
}

fn flocked(file: &File, operation: i32) -> io::Result<()> {
    // The handle is open as long as `file` is lent.
    while unsafe { flock(file.as_raw_fd(), operation) } != 0 {
        let error = io::Error::last_os_error();
        if error.kind() != ErrorKind::Interrupted {
            return Err(error);
        }
    }
    Ok(())
}

fn made(path: &Path) -> io::Result<File> {
    let mut options = OpenOptions::new();
    options.read(true).write(true).create(true).custom_flags(NO_FOLLOW).open(path)
}

/// Opens the new file that is written beside the old one, and holds it alone: one that a killed
/// save left is taken over, and one that another save writes is waited for.
fn open_new(beside: &Path) -> io::Result<File> {
    loop {
        let file = made(beside)?;
        flocked(&file, EXCLUSIVE)?;
        let mine = file.metadata()?;
        let is_mine = |at: fs::Metadata| (at.dev(), at.ino()) == (mine.dev(), mine.ino());
        if fs::metadata(beside).map_or(false, is_mine) {
            return Ok(file);
        }
    }
}

/// The file that a path leads to, through links. A link to nothing is an error.
fn real(path: &Path) -> io::Result<PathBuf> {
    let is_there = fs::symlink_metadata(path).is_ok();
    match fs::canonicalize(path) {
        Err(error) if error.kind() == ErrorKind::NotFound && !is_there => Ok(path.to_path_buf()),
        found => found,
    }
}

/// A name with something behind it.
fn behind(name: &Path, end: &str) -> PathBuf {
    let mut text = name.as_os_str().to_os_string();
    text.push(end);
    PathBuf::from(text)
}

/// Has the folder on the disk, with the name that was just given there.
fn synced(name: &Path) -> io::Result<()> {
    let folder = name.parent().filter(|folder| !folder.as_os_str().is_empty());
    match File::open(folder.unwrap_or(Path::new("."))).and_then(|folder| folder.sync_all()) {
        Err(error) if error.kind() == ErrorKind::InvalidInput => Ok(()),
        done => done,
    }
}

/// The lock of a desk's file, a file beside it, until it is dropped. The lock's file stays.
pub struct Lock {
    _file: File,
}

impl Lock {
    /// Takes it, and waits so long for another who has it.
    pub fn take(path: impl AsRef<Path>, wait: Duration) -> Result<Lock, Fault> {
        let wrong = |error| Fault::Locked(Some(error));
        let until = Instant::now() + wait;
        let beside = behind(&real(path.as_ref()).map_err(wrong)?, ".lock");
        let file = made(&beside).map_err(wrong)?;
        loop {
            match flocked(&file, EXCLUSIVE | NOT_WAITING) {
                Ok(()) => return Ok(Lock { _file: file }),
                Err(error) if error.kind() != ErrorKind::WouldBlock => return Err(wrong(error)),
                Err(_) if Instant::now() >= until => return Err(Fault::Locked(None)),
                Err(_) => std::thread::sleep(Duration::from_millis(20)),
            }
        }
    }
}
