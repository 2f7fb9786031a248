use crate::medium::Medium;
use alloc::vec;
use alloc::vec::Vec;
use std::fs::File;
use std::io::{self, Read, Seek, SeekFrom, Write};

/// A medium in a file. Each change is written and synced.
#[derive(Debug)]
pub struct FileMedium {
    file: File,
}

impl FileMedium {
    /// The medium in a file that can be read and written. The file is locked (`flock`, on Linux) until the medium is dropped, so that
    /// no other medium stands in it meanwhile; one that is locked already is refused, by [`io::ErrorKind::WouldBlock`].
    pub fn new(file: File) -> io::Result<Self> {
        file.try_lock()?;
        Ok(FileMedium { file })
    }

    fn write_at(&mut self, offset: u64, bytes: &[u8]) -> io::Result<()> {
        self.file.seek(SeekFrom::Start(offset))?;
        self.file.write_all(bytes)?;
        self.file.sync_data()
    }
}

impl Medium for FileMedium {
    type Error = io::Error;

    fn contents(&mut self) -> io::Result<Vec<u8>> {
        let mut bytes = Vec::new();
        self.file.seek(SeekFrom::Start(0))?;
        self.file.read_to_end(&mut bytes)?;
        Ok(bytes)
    }

    fn program(&mut self, offset: u64, bytes: &[u8]) -> io::Result<()> {
        self.write_at(offset, bytes)
    }

    fn erase(&mut self, offset: u64, length: u32) -> io::Result<()> {
        self.write_at(offset, &vec![0xFF; length as usize])
    }
}
