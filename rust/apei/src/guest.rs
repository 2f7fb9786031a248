use core::sync::atomic::{AtomicU16, AtomicU32, AtomicU64, AtomicU8, Ordering};

/// Where bytes of a guest stand.
#[derive(Clone, Copy, Debug, PartialEq, Eq, Hash)]
pub enum Place {
    /// At an address of its memory.
    Memory(u64),
    /// At a port.
    Io(u64),
}

/// A guest, as far as its error sources go.
///
/// A read, and a write of 1, 2, 4 or 8 bytes at a multiple of them, is one access of the machine: the guest sees it whole or not. All
/// that was written before is visible to the guest when such a write is, and when it is notified. A read reads the memory, and
/// nothing that was kept of it.
pub trait Guest {
    /// How it fails. What failed is tried again at the next call.
    type Error;

    /// The number that 1, 2, 4 or 8 bytes are, the low byte first.
    fn read(&mut self, place: Place, size: u32) -> Result<u64, Self::Error>;

    /// Writes 1 to 64 bytes.
    fn write(&mut self, place: Place, bytes: &[u8]) -> Result<(), Self::Error>;

    /// Notifies the guest as the notification of this source says.
    fn notify(&mut self, source: u32) -> Result<(), Self::Error>;
}

impl<G: Guest + ?Sized> Guest for &mut G {
    type Error = G::Error;

    fn read(&mut self, place: Place, size: u32) -> Result<u64, G::Error> {
        (**self).read(place, size)
    }

    fn write(&mut self, place: Place, bytes: &[u8]) -> Result<(), G::Error> {
        (**self).write(place, bytes)
    }

    fn notify(&mut self, source: u32) -> Result<(), G::Error> {
        (**self).notify(source)
    }
}

/// Bytes of a guest's memory as they are mapped into this program: it makes the reads and writes of a [`Guest`].
#[derive(Debug)]
pub struct MappedMemory {
    start: *mut u8,
    size: u64,
    address: u64,
}

// SAFETY: whoever makes one says that the bytes may be reached from any thread.
unsafe impl Send for MappedMemory {}

impl MappedMemory {
    /// The `size` bytes from `start` on, which the guest has at `address`. None if `start` and `address` are no multiples of 8.
    ///
    /// # Safety
    /// The bytes are mapped as long as this lives, may be read and written from any thread, and are reached by nothing else in this
    /// program but by atomic accesses.
    pub unsafe fn new(start: *mut u8, size: u64, address: u64) -> Option<Self> {
        let is_aligned = (start as usize).is_multiple_of(8) && address.is_multiple_of(8);
        is_aligned.then_some(MappedMemory {
            start,
            size,
            address,
        })
    }

    /// Where so many bytes at an address stand here; none if they are not all mapped.
    fn find(&self, address: u64, size: u64) -> Option<*mut u8> {
        let offset = address.checked_sub(self.address)?;
        let is_there = size <= self.size && offset <= self.size - size;
        // SAFETY: the bytes are among those that are mapped.
        is_there.then(|| unsafe { self.start.add(offset as usize) })
    }

    /// Reads the number that 1, 2, 4 or 8 bytes are at a multiple of them. None if they are not mapped, or not so.
    pub fn read(&self, address: u64, size: u32) -> Option<u64> {
        let at = self.find(address, u64::from(size))?;
        if !address.is_multiple_of(size.into()) {
            return None;
        }
        // SAFETY: the bytes are mapped, and the place is aligned as the address is.
        unsafe {
            Some(match size {
                1 => (*at.cast::<AtomicU8>()).load(Ordering::Acquire).into(),
                2 => u16::from_le((*at.cast::<AtomicU16>()).load(Ordering::Acquire)).into(),
                4 => u32::from_le((*at.cast::<AtomicU32>()).load(Ordering::Acquire)).into(),
                8 => u64::from_le((*at.cast::<AtomicU64>()).load(Ordering::Acquire)),
                _ => return None,
            })
        }
    }

    /// Writes bytes: 1, 2, 4 or 8 at a multiple of them by one access, others one by one. None if they are not mapped.
    pub fn write(&self, address: u64, bytes: &[u8]) -> Option<()> {
        let at = self.find(address, bytes.len() as u64)?;
        let is_aligned = address.is_multiple_of(bytes.len() as u64);
        // SAFETY: the bytes are mapped, and the place is aligned as the address is.
        unsafe {
            match (bytes, is_aligned) {
                (&[a, b], true) => (*at.cast::<AtomicU16>())
                    .store(u16::from_le_bytes([a, b]).to_le(), Ordering::Release),
                (&[a, b, c, d], true) => (*at.cast::<AtomicU32>())
                    .store(u32::from_le_bytes([a, b, c, d]).to_le(), Ordering::Release),
                (&[a, b, c, d, e, f, g, h], true) => (*at.cast::<AtomicU64>()).store(
                    u64::from_le_bytes([a, b, c, d, e, f, g, h]).to_le(),
                    Ordering::Release,
                ),
                _ => {
                    for (i, byte) in bytes.iter().enumerate() {
                        (*at.add(i).cast::<AtomicU8>()).store(*byte, Ordering::Release);
                    }
                }
            }
        }
        Some(())
    }
}
