//! Folders of a test's own.

use super::FOLDER;
use std::fs;
use std::path::{Path, PathBuf};
use std::sync::atomic::{AtomicU64, Ordering};

/// A folder of this test's own, removed when dropped. It lies in the folder that the program runs in.
pub struct Folder {
    pub name: String,
}

impl Folder {
    pub fn new() -> Folder {
        static COUNT: AtomicU64 = AtomicU64::new(0);
        let count = COUNT.fetch_add(1, Ordering::Relaxed);
        let folder = Folder {
            name: format!("folder-{}-{count}", std::process::id()),
        };
        fs::create_dir(folder.path("")).expect("the target folder can be written");
        folder
    }

    pub fn path(&self, name: &str) -> PathBuf {
        Path::new(FOLDER).join(&self.name).join(name)
    }

    /// The names in it, sorted.
    pub fn names(&self) -> Vec<String> {
        let entries = fs::read_dir(self.path("")).expect("the folder is there");
        let name = |entry: std::io::Result<fs::DirEntry>| entry.expect("an entry").file_name();
        let mut names: Vec<String> = entries
            .map(|entry| name(entry).into_string().expect("text"))
            .collect();
        names.sort();
        names
    }
}

impl Drop for Folder {
    fn drop(&mut self) {
        let _ = fs::remove_dir_all(self.path(""));
    }
}
