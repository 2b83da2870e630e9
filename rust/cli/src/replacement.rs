//! A file that is written beside its name and takes its place once it is whole.

use std::collections::hash_map::RandomState;
use std::fs::{self, File, OpenOptions};
use std::hash::{BuildHasher, Hasher};
use std::io;
use std::os::unix::ffi::OsStrExt;
use std::os::unix::fs::OpenOptionsExt;
use std::path::{Path, PathBuf};

/// What a name is told for that stands for something else.
pub const NOT_A_FILE: &str = "it is there and is not a regular file";

/// A new file for a name. Dropped before it is put there, it is removed, and what the name had stays.
pub struct Replacement {
    /// The new file, which its owner alone may read and write.
    pub file: File,
    beside: PathBuf,
    target: PathBuf,
}

impl Replacement {
    /// Makes the file in the folder of the name, so that putting it there is one step of the file system.
    pub fn create(target: &Path) -> io::Result<Replacement> {
        require_replaceable(target)?;
        let fresh = RandomState::new().build_hasher().finish();
        let beside = target.with_file_name(format!(".lyra2-new-{fresh:016x}"));
        // A new file only: no link is followed, and no file of someone else is taken.
        let mut options = OpenOptions::new();
        options.write(true).create_new(true).mode(0o600);
        Ok(Replacement {
            file: options.open(&beside)?,
            beside,
            target: target.to_path_buf(),
        })
    }

    /// Puts the file, once the disk has it whole, in the place of what the name had.
    pub fn put(self) -> io::Result<()> {
        self.file.sync_all()?;
        fs::rename(&self.beside, &self.target)
    }
}

impl Drop for Replacement {
    fn drop(&mut self) {
        // Once it was put in its place there is nothing of this name left.
        let _ = fs::remove_file(&self.beside);
    }
}

/// Requires a name that is free, or that of a regular file, or of a link to one or to nothing.
fn require_replaceable(target: &Path) -> io::Result<()> {
    require_file_name(target)?;
    let found = match fs::symlink_metadata(target) {
        Err(error) if error.kind() == io::ErrorKind::NotFound => return Ok(()),
        found => found?,
    };
    if found.is_file() || (found.is_symlink() && !leads_elsewhere(target)?) {
        return Ok(());
    }
    Err(io::Error::other(NOT_A_FILE))
}

/// Requires a name that a file can have. A slash or a dot after the last name asks for a folder.
pub fn require_file_name(target: &Path) -> io::Result<()> {
    let name = target.file_name().unwrap_or_default().as_bytes();
    match !name.is_empty() && target.as_os_str().as_bytes().ends_with(name) {
        true => Ok(()),
        false => Err(io::Error::other("not the name of a file")),
    }
}

/// Whether a link leads to what is not a regular file, or into /proc. The latter is how /dev/stdout names a file
/// that is open, whatever it is; nobody who gives that name wants the link replaced.
fn leads_elsewhere(link: &Path) -> io::Result<bool> {
    let is_other = fs::metadata(link).is_ok_and(|found| !found.is_file());
    Ok(is_other || fs::read_link(link)?.starts_with("/proc"))
}
