//! A file that is changed whole or not at all, and by one program at a time.
//!
//! The new file is written beside the old one and takes its name once the disk has it. It is the lock as well: whoever
//! makes it, locks it and still finds it under its name may change the old file. A program that is killed leaves it
//! unlocked, and the next one removes it.

use crate::replacement::{require_file_name, NOT_A_FILE};
use rustix::fs::OFlags;
use std::ffi::OsString;
use std::fs::{self, File, Metadata, OpenOptions, Permissions};
use std::io::{self, ErrorKind, Write};
use std::os::unix::fs::{fchown, MetadataExt, OpenOptionsExt, PermissionsExt};
use std::path::{Path, PathBuf};

/// The right to change a file. Dropped before the new file is put in its place, it leaves the old one as it was.
pub struct Change {
    new: File,
    /// The folder, opened early, since it is synced when nothing can be taken back any more.
    folder: File,
    beside: PathBuf,
    target: PathBuf,
    is_put: bool,
}

impl Change {
    /// Waits until no other program changes the file, which need not be there.
    pub fn begin(target: &Path) -> io::Result<Change> {
        require_file_name(target)?;
        let mut name = OsString::from(".");
        name.push(target.file_name().unwrap_or_default());
        name.push(".lyra2-new");
        let beside = target.with_file_name(name);
        let folder = match target.parent() {
            Some(folder) if folder != Path::new("") => File::open(folder)?,
            _ => File::open(".")?,
        };
        Ok(Change {
            new: locked(&beside)?,
            folder,
            beside,
            target: target.to_path_buf(),
            is_put: false,
        })
    }

    /// The file that is to be changed. Through a link it is not, for the link itself would be replaced.
    pub fn old(&self) -> io::Result<File> {
        let found = fs::symlink_metadata(&self.target)?;
        if found.is_symlink() {
            return Err(io::Error::other("a link; name the file that it leads to"));
        }
        if !found.is_file() {
            return Err(io::Error::other(NOT_A_FILE));
        }
        File::open(&self.target)
    }

    /// Puts a file of these bytes in the place of the old one, with its owner, group and mode. Where there is none it is
    /// for its owner alone. An error before the new file has the name leaves everything as it was.
    pub fn put(mut self, bytes: &[u8]) -> io::Result<()> {
        self.new.write_all(bytes)?;
        match fs::symlink_metadata(&self.target) {
            Ok(old) => keep_rights(&self.new, &old)?,
            Err(error) if error.kind() == ErrorKind::NotFound => (),
            Err(error) => return Err(error),
        }
        self.new.sync_all()?;
        fs::rename(&self.beside, &self.target)?;
        // From now on the name beside it may be another program's.
        self.is_put = true;
        self.folder.sync_all().map_err(|error| {
            let words = "changed, but after a loss of power it may be as before";
            io::Error::other(format!("{words}: {error}"))
        })
    }
}

impl Drop for Change {
    fn drop(&mut self) {
        if !self.is_put {
            let _ = fs::remove_file(&self.beside);
        }
    }
}

/// A new file for its owner alone, locked. Whoever else finds it waits for the lock.
fn locked(beside: &Path) -> io::Result<File> {
    loop {
        let mut options = OpenOptions::new();
        options.write(true).create_new(true).mode(0o600);
        let new = match options.open(beside) {
            Err(error) if error.kind() == ErrorKind::AlreadyExists => {
                wait_for(beside)?;
                continue;
            }
            opened => opened?,
        };
        if let Err(error) = new.lock() {
            let _ = fs::remove_file(beside);
            return Err(error);
        }
        // Before it was locked another program may have taken it for one that was left.
        if is_at(&new, beside)? {
            return Ok(new);
        }
    }
}

/// Waits until nobody has another program's new file locked. If it is still there, that program was killed: it is removed.
fn wait_for(beside: &Path) -> io::Result<()> {
    let flags = OFlags::NOFOLLOW | OFlags::NONBLOCK;
    let mut options = OpenOptions::new();
    options.read(true).custom_flags(flags.bits() as i32);
    let opened = options.open(beside).and_then(|other| {
        other.lock()?;
        match is_at(&other, beside)? {
            true => fs::remove_file(beside),
            false => Ok(()),
        }
    });
    match opened {
        Err(error) if error.kind() != ErrorKind::NotFound => {
            Err(io::Error::other(format!("{beside:?}: {error}")))
        }
        _ => Ok(()),
    }
}

/// Whether a name stands for an open file.
fn is_at(file: &File, name: &Path) -> io::Result<bool> {
    let identity = |found: Metadata| (found.dev(), found.ino());
    match fs::symlink_metadata(name) {
        Err(error) if error.kind() == ErrorKind::NotFound => Ok(false),
        found => Ok(identity(found?) == identity(file.metadata()?)),
    }
}

/// Gives the new file the old one's owner, group and mode. With another group the mode would let others read it.
fn keep_rights(new: &File, old: &Metadata) -> io::Result<()> {
    let found = new.metadata()?;
    if (found.uid(), found.gid()) != (old.uid(), old.gid()) {
        fchown(new, Some(old.uid()), Some(old.gid())).map_err(|error| {
            io::Error::other(format!("its owner and group cannot be kept: {error}"))
        })?;
    }
    new.set_permissions(Permissions::from_mode(old.mode() & 0o7777))
}
