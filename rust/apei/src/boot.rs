use crate::error::{answer, Error, Failure, NONE};
use crate::guest::{Guest, Place};
use crate::raw;
use core::cell::UnsafeCell;

/// A boot error region (ACPI 6.4, section 18.3.1): memory that keeps its bytes over a reset, where the blocks of fatal errors are laid
/// for the next operating system. What power that is lost at any moment leaves is the blocks that were laid before, each whole.
pub struct BootRegion<G> {
    handle: Handle,
    guest: G,
}

/// The archive's handle of an open region, which closes it. Its calls take no lock, so no two threads reach it at once.
struct Handle(UnsafeCell<raw::Boot>);

// SAFETY: what the handle owns is reached by nothing else.
unsafe impl Send for Handle {}

impl Handle {
    fn boot(&self) -> *mut raw::Boot {
        self.0.get()
    }
}

impl Drop for Handle {
    fn drop(&mut self) {
        // SAFETY: the handle is this region's alone.
        unsafe { raw::apei_c_boot_close(self.boot()) };
    }
}

impl<G: Guest> BootRegion<G> {
    /// Opens a region of `length` bytes at an address, and makes it empty: the operating system has to have read it before.
    pub fn open(guest: G, address: u64, length: u32) -> Result<Self, Failure<G::Error>> {
        let handle = Handle(UnsafeCell::new(raw::Boot::closed()));
        // SAFETY: the handle lives as long as the call.
        answer(unsafe { raw::apei_c_boot_open(handle.boot(), address, length) })?;
        let mut region = BootRegion { handle, guest };
        region.make_accesses()?;
        Ok(region)
    }

    /// Lays an error status block behind those that were laid. Where the memory failed an access, it is made first.
    pub fn lay(&mut self, block: &[u8]) -> Result<(), Failure<G::Error>> {
        self.make_accesses()?;
        // SAFETY: the block and the handle live as long as the call.
        answer(unsafe { raw::apei_c_boot_lay(self.handle.boot(), block.as_ptr(), block.len()) })?;
        self.make_accesses()
    }

    /// The memory.
    pub fn guest(&self) -> &G {
        &self.guest
    }

    fn make_accesses(&mut self) -> Result<(), Failure<G::Error>> {
        let mut bytes = [0; raw::ACCESS_MAX];
        loop {
            let mut access = raw::Access::default();
            // SAFETY: `bytes` has the room that is told, and the references live as long as the call.
            let status = unsafe {
                raw::apei_c_boot_access(
                    self.handle.boot(),
                    &mut access,
                    bytes.as_mut_ptr(),
                    bytes.len(),
                )
            };
            if status == NONE {
                return Ok(());
            }
            answer(status)?;
            self.guest
                .write(
                    Place::Memory(access.address),
                    &bytes[..access.length as usize],
                )
                .map_err(Failure::Guest)?;
            // SAFETY: the handle lives as long as the call.
            answer(unsafe { raw::apei_c_boot_done(self.handle.boot()) })?;
        }
    }
}

/// The Boot Error Record Table (ACPI 6.4, section 18.3.1) of a region, sealed: give it to the operating system.
pub fn boot_table(address: u64, length: u32) -> Result<[u8; raw::BERT_SIZE], Error> {
    let mut table = [0; raw::BERT_SIZE];
    // SAFETY: the table has the room that is told.
    answer(unsafe { raw::apei_c_boot_table(address, length, table.as_mut_ptr(), table.len()) })?;
    Ok(table)
}
