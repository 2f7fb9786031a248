use alloc::vec;
use alloc::vec::Vec;
use core::convert::Infallible;
use core::fmt;

/// Where a device keeps its flash: a chip, a file, a block device.
///
/// A change stands, also over a loss of power, before its call returns; changes reach the medium in the order of the calls. A
/// change that fails, or that power cuts, alters no byte outside its range.
pub trait Medium {
    /// How it fails.
    type Error;

    /// All its bytes.
    fn contents(&mut self) -> Result<Vec<u8>, Self::Error>;

    /// Programs bytes that are erased, within one page of 256 bytes. Only the first change of a format programs a byte that may not be
    /// erased.
    fn program(&mut self, offset: u64, bytes: &[u8]) -> Result<(), Self::Error>;

    /// Makes the bytes of a sector 0xFF.
    fn erase(&mut self, offset: u64, length: u32) -> Result<(), Self::Error>;
}

impl<M: Medium + ?Sized> Medium for &mut M {
    type Error = M::Error;

    fn contents(&mut self) -> Result<Vec<u8>, M::Error> {
        (**self).contents()
    }

    fn program(&mut self, offset: u64, bytes: &[u8]) -> Result<(), M::Error> {
        (**self).program(offset, bytes)
    }

    fn erase(&mut self, offset: u64, length: u32) -> Result<(), M::Error> {
        (**self).erase(offset, length)
    }
}

/// A medium in memory. It keeps what it is given as long as it lives.
#[derive(Clone, Default, PartialEq, Eq)]
pub struct MemoryMedium {
    bytes: Vec<u8>,
}

/// How many bytes it has.
impl fmt::Debug for MemoryMedium {
    fn fmt(&self, f: &mut fmt::Formatter<'_>) -> fmt::Result {
        f.debug_struct("MemoryMedium")
            .field("size", &self.bytes.len())
            .finish()
    }
}

impl MemoryMedium {
    /// The medium of these bytes.
    pub fn new(bytes: Vec<u8>) -> Self {
        MemoryMedium { bytes }
    }

    /// Its bytes.
    pub fn bytes(&self) -> &[u8] {
        &self.bytes
    }

    fn write_at(&mut self, offset: u64, bytes: &[u8]) {
        let start = offset as usize;
        let end = start + bytes.len();
        if self.bytes.len() < end {
            self.bytes.resize(end, 0xFF);
        }
        self.bytes[start..end].copy_from_slice(bytes);
    }
}

impl Medium for MemoryMedium {
    type Error = Infallible;

    fn contents(&mut self) -> Result<Vec<u8>, Infallible> {
        Ok(self.bytes.clone())
    }

    fn program(&mut self, offset: u64, bytes: &[u8]) -> Result<(), Infallible> {
        self.write_at(offset, bytes);
        Ok(())
    }

    fn erase(&mut self, offset: u64, length: u32) -> Result<(), Infallible> {
        self.write_at(offset, &vec![0xFF; length as usize]);
        Ok(())
    }
}
