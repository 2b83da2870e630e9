//! Reading an end-state file, a word at a time, so that no size in it asks for memory.

use super::checksum::Checksum;
use super::{Header, Version, MAGIC, OF_VERSION_1};
use crate::failure::Failure;
use indicatif::{ProgressBar, ProgressBarIter};
use std::fs::File;
use std::io::{self, BufReader, ErrorKind, Read};
use std::path::{Path, PathBuf};

/// An end-state file being read.
pub struct Reader {
    path: PathBuf,
    file: BufReader<ProgressBarIter<File>>,
    sum: Checksum,
    version: Option<Version>,
    header: Option<Header>,
}

impl Reader {
    /// Opens a file and reads its header. The bar shows what is read.
    pub fn open(path: &Path, bar: &ProgressBar) -> Result<(Header, Reader), Failure> {
        let file = File::open(path).map_err(|error| Failure::of_file(path, error))?;
        let mut reader = Reader {
            path: path.to_path_buf(),
            file: BufReader::new(bar.wrap_read(file)),
            sum: Checksum::new(),
            version: None,
            header: None,
        };
        let header = reader.header()?;
        reader.header = Some(header);
        Ok((header, reader))
    }

    fn header(&mut self) -> Result<Header, Failure> {
        let [magic, version] = self.words()?;
        if magic != MAGIC {
            let words = "not an end-state file: it does not start with LYRA2END";
            return Err(self.failure(words));
        }
        let version = Version::of_number(version).map_err(|what| self.failure(what))?;
        self.version = Some(version);
        let [time, rows, columns] = self.words()?;
        let [rho, omega, mixer] = match version {
            Version::One => OF_VERSION_1,
            Version::Two | Version::Three => self.words()?,
        };
        let [key_length, full, reduced, rounds] = self.words()?;
        let fields = [
            time, rows, columns, rho, omega, mixer, key_length, full, reduced, rounds,
        ];
        Header::from_fields(fields).map_err(|what| self.failure(what))
    }

    /// The next words.
    pub fn words<const COUNT: usize>(&mut self) -> Result<[u64; COUNT], Failure> {
        let mut words = [0; COUNT];
        for word in &mut words {
            *word = self.word()?;
        }
        Ok(words)
    }

    fn word(&mut self) -> Result<u64, Failure> {
        let bytes = self.bytes()?;
        self.sum.add(bytes);
        Ok(u64::from_le_bytes(bytes))
    }

    /// The next two numbers of the record. A word of an old file may hold a number that no packed word has room for, so
    /// files of all versions are read as numbers.
    pub fn pair(&mut self) -> Result<[u64; 2], Failure> {
        if self.version.is_some_and(Version::is_packed) {
            return self.word().map(lyra2::record_pair);
        }
        self.words()
    }

    /// Reads the checksum, which has to be right and the last of the file.
    pub fn close(mut self) -> Result<(), Failure> {
        let due = self.sum.sum();
        let found = u64::from_le_bytes(self.bytes()?);
        if found != due {
            let words =
                format!("damaged: its checksum is {found:016x}, its contents give {due:016x}");
            return Err(self.failure(words));
        }
        match self.file.read_exact(&mut [0]) {
            Err(error) if error.kind() == ErrorKind::UnexpectedEof => Ok(()),
            Err(error) => Err(self.failure(error)),
            Ok(()) => Err(self.failure(format!("longer than {}", self.due_length()))),
        }
    }

    fn bytes(&mut self) -> Result<[u8; 8], Failure> {
        let mut bytes = [0; 8];
        let read: io::Result<()> = self.file.read_exact(&mut bytes);
        read.map_err(|error| match error.kind() {
            ErrorKind::UnexpectedEof => self.failure(format!("shorter than {}", self.due_length())),
            _ => self.failure(error),
        })?;
        Ok(bytes)
    }

    fn due_length(&self) -> String {
        match (self.version, self.header) {
            (Some(version), Some(header)) => {
                let bytes = header.bytes_of(version);
                format!("the {bytes} bytes that its header asks for")
            }
            (Some(version), None) => format!("the header of {} bytes", 8 * version.header_words()),
            (None, _) => "the header of an end-state file".to_string(),
        }
    }

    fn failure(&self, words: impl std::fmt::Display) -> Failure {
        Failure::of_file(&self.path, words)
    }
}
