use crate::error::{answer, Error, Failure, NONE};
use crate::geometry::{make, Geometry};
use crate::medium::Medium;
use crate::raw;
use crate::sized::sized;
use alloc::vec::Vec;
use core::cell::UnsafeCell;
use core::fmt;

/// The bytes of the register window.
pub const REGISTERS_SIZE: u64 = 16;

/// One of the device's two windows of guest-physical memory.
#[derive(Clone, Copy, Debug, PartialEq, Eq, Hash)]
pub enum Window {
    /// ACTION: 4 bytes at 0. VALUE: 8 bytes at 8, or its halves, 4 bytes at 8 and at 12.
    Registers,
    /// The log range: any bytes.
    LogRange,
}

/// Where the guest finds the two windows.
#[derive(Clone, Copy, Debug, PartialEq, Eq, Hash)]
pub struct Addresses {
    /// Of the registers.
    pub registers: u64,
    /// Of the log range.
    pub log_range: u64,
}

impl Addresses {
    fn as_raw(self) -> raw::Addresses {
        raw::Addresses {
            registers: self.registers,
            range: self.log_range,
        }
    }
}

/// The error record device over a medium (ACPI 6.4, section 18.5).
///
/// Each change that an access makes due is made on the medium before the access returns. Where the medium fails one, the
/// device goes on over what the medium then holds: its operation has ended, and the guest is told FAILED (ACPI 6.4,
/// section 18.5.1) until it begins another one or is reset. The call answers [`Failure::Medium`], so that the program may
/// say so. If the medium cannot be read either, no action is taken until a later access can read it.
///
/// ```
/// use apei::{format, Addresses, Device, Geometry, MemoryMedium, Window};
///
/// let mut medium = MemoryMedium::default();
/// format(&mut medium, Geometry::new(4096, 2, 16)?)?;
/// let addresses = Addresses { registers: 0xFED4_0000, log_range: 0xFED5_0000 };
/// let mut device = Device::open(medium, addresses)?;
///
/// // GET_RECORD_COUNT: the action's code goes to ACTION, and the answer stands in VALUE.
/// device.write(Window::Registers, 0, &0x0A_u32.to_le_bytes())?;
/// let mut count = [0; 8];
/// device.read(Window::Registers, 8, &mut count)?;
/// assert_eq!(u64::from_le_bytes(count), 0);
/// # Ok::<(), Box<dyn std::error::Error>>(())
/// ```
pub struct Device<M> {
    handle: Handle,
    geometry: Geometry,
    medium: M,
    /// The medium failed a change, and the device does not yet go on over what it holds.
    is_behind: bool,
}

/// The archive's handle of an open device, which closes it. Its calls take no lock, so no two threads reach it at once.
struct Handle(UnsafeCell<raw::Erst>);

// SAFETY: what the handle owns is reached by nothing else.
unsafe impl Send for Handle {}

impl Handle {
    fn erst(&self) -> *mut raw::Erst {
        self.0.get()
    }
}

impl Drop for Handle {
    fn drop(&mut self) {
        // SAFETY: the handle is this device's alone.
        unsafe { raw::apei_c_erst_close(self.erst()) };
    }
}

/// Its geometry and its medium: what the guest sees is not shown.
impl<M: fmt::Debug> fmt::Debug for Device<M> {
    fn fmt(&self, f: &mut fmt::Formatter<'_>) -> fmt::Result {
        f.debug_struct("Device")
            .field("geometry", &self.geometry)
            .field("medium", &self.medium)
            .finish_non_exhaustive()
    }
}

impl<M: Medium> Device<M> {
    /// Opens the device of a formatted medium.
    pub fn open(medium: M, addresses: Addresses) -> Result<Self, Failure<M::Error>> {
        Self::open_by(medium, None, |erst, bytes| {
            // SAFETY: the bytes and the references live as long as the call.
            unsafe { raw::apei_c_erst_open(erst, bytes.as_ptr(), bytes.len(), &addresses.as_raw()) }
        })
    }

    /// Opens the device of a medium that has no sector to spare: all of it is flash of this geometry. Nothing says that it is the
    /// right one.
    pub fn open_raw(
        medium: M,
        geometry: Geometry,
        addresses: Addresses,
    ) -> Result<Self, Failure<M::Error>> {
        Self::open_by(medium, Some(geometry), |erst, bytes| {
            // SAFETY: as above.
            unsafe {
                raw::apei_c_erst_open_raw(
                    erst,
                    bytes.as_ptr(),
                    bytes.len(),
                    &geometry.as_raw(),
                    &addresses.as_raw(),
                )
            }
        })
    }

    /// Opens the device of a medium and goes on where a device stopped that [`Device::save`] saved: the addresses, the registers and
    /// the log range are that one's, so it answers every access as that one. The medium has to hold what that one's held.
    pub fn load(medium: M, saved: &[u8]) -> Result<Self, Failure<M::Error>> {
        Self::open_by(medium, None, |erst, bytes| {
            // SAFETY: the bytes and the handle live as long as the call.
            unsafe {
                raw::apei_c_erst_load(
                    erst,
                    bytes.as_ptr(),
                    bytes.len(),
                    saved.as_ptr(),
                    saved.len(),
                )
            }
        })
    }

    /// The same for a medium that has no sector to spare.
    pub fn load_raw(
        medium: M,
        geometry: Geometry,
        saved: &[u8],
    ) -> Result<Self, Failure<M::Error>> {
        Self::open_by(medium, Some(geometry), |erst, bytes| {
            // SAFETY: as above.
            unsafe {
                raw::apei_c_erst_load_raw(
                    erst,
                    bytes.as_ptr(),
                    bytes.len(),
                    &geometry.as_raw(),
                    saved.as_ptr(),
                    saved.len(),
                )
            }
        })
    }

    /// Opens a device, whose medium tells its geometry unless the caller does.
    fn open_by(
        mut medium: M,
        geometry: Option<Geometry>,
        open: impl FnOnce(*mut raw::Erst, &[u8]) -> u32,
    ) -> Result<Self, Failure<M::Error>> {
        let bytes = medium.contents().map_err(Failure::Medium)?;
        let handle = Handle(UnsafeCell::new(raw::Erst::closed()));
        answer(open(handle.erst(), &bytes))?;
        let geometry = geometry
            .or_else(|| Geometry::of_medium(&bytes))
            .ok_or(Error::Foreign)?;
        drop(bytes);
        let mut device = Device {
            handle,
            geometry,
            medium,
            is_behind: false,
        };
        device.make_changes()?;
        Ok(device)
    }

    /// Reads bytes of a window, as the guest does.
    pub fn read(&self, window: Window, offset: u64, bytes: &mut [u8]) -> Result<(), Error> {
        match window {
            // SAFETY: the bytes and the handle live as long as the call.
            Window::LogRange => answer(unsafe {
                raw::apei_c_erst_get(self.handle.erst(), offset, bytes.as_mut_ptr(), bytes.len())
            }),
            Window::Registers => {
                let size = register_size(bytes.len())?;
                let mut value = 0;
                // SAFETY: the handle and the value live as long as the call.
                answer(unsafe {
                    raw::apei_c_erst_read(self.handle.erst(), 0, offset, size, &mut value)
                })?;
                bytes.copy_from_slice(&value.to_le_bytes()[..bytes.len()]);
                Ok(())
            }
        }
    }

    /// Writes bytes of a window, as the guest does, and makes the change on the medium that this may make due.
    pub fn write(
        &mut self,
        window: Window,
        offset: u64,
        bytes: &[u8],
    ) -> Result<(), Failure<M::Error>> {
        match window {
            // SAFETY: the bytes and the handle live as long as the call.
            Window::LogRange => answer(unsafe {
                raw::apei_c_erst_put(self.handle.erst(), offset, bytes.as_ptr(), bytes.len())
            })?,
            Window::Registers => {
                let size = register_size(bytes.len())?;
                let mut value = [0; 8];
                value[..bytes.len()].copy_from_slice(bytes);
                self.catch_up()?;
                // SAFETY: the handle lives as long as the call.
                answer(unsafe {
                    raw::apei_c_erst_write(
                        self.handle.erst(),
                        0,
                        offset,
                        size,
                        u64::from_le_bytes(value),
                    )
                })?;
                self.keep_up()?;
            }
        }
        Ok(())
    }

    /// The guest was reset: the registers are as at first, and an execution that runs is abandoned.
    pub fn reset(&mut self) -> Result<(), Failure<M::Error>> {
        self.catch_up()?;
        // SAFETY: the handle lives as long as the call.
        answer(unsafe { raw::apei_c_erst_reset(self.handle.erst()) })?;
        self.keep_up()
    }

    /// Ends the execution that runs, change by change, as the polls of the guest would. VALUE stays. So a guest that is paused can be
    /// saved, and finds at its next poll that its execution has ended.
    pub fn settle(&mut self) -> Result<(), Failure<M::Error>> {
        self.catch_up()?;
        loop {
            // SAFETY: the handle lives as long as the call.
            let status = unsafe { raw::apei_c_erst_settle(self.handle.erst()) };
            if status == NONE {
                return Ok(());
            }
            answer(status)?;
            self.keep_up()?;
        }
    }

    /// Other addresses, as when the windows of a PCI device are moved. The table is another then.
    pub fn move_to(&mut self, addresses: Addresses) -> Result<(), Error> {
        // SAFETY: the handle and the addresses live as long as the call.
        answer(unsafe { raw::apei_c_erst_move(self.handle.erst(), &addresses.as_raw()) })
    }

    /// The Error Record Serialization Table for these addresses, sealed: give it to the guest.
    pub fn table(&self) -> Vec<u8> {
        sized(|bytes, size| {
            // SAFETY: the bytes and the references live as long as the call.
            unsafe {
                raw::apei_c_erst_table(self.handle.erst(), bytes.as_mut_ptr(), bytes.len(), size)
            }
        })
        .unwrap_or_default()
    }

    /// The bytes of the log range: those of the longest record.
    pub fn log_range_size(&self) -> u64 {
        let mut size = 0;
        // SAFETY: the handle and the size live as long as the call.
        unsafe { raw::apei_c_erst_range_size(self.handle.erst(), &mut size) };
        size
    }

    /// What the device is beside its medium, as bytes: the addresses of its windows, its registers and its log range.
    /// [`Device::load`] makes a device of them. [`Error::Busy`] while an execution runs: [`Device::settle`] ends it.
    pub fn save(&self) -> Result<Vec<u8>, Error> {
        sized(|bytes, size| {
            // SAFETY: the bytes and the references live as long as the call.
            unsafe {
                raw::apei_c_erst_save(self.handle.erst(), bytes.as_mut_ptr(), bytes.len(), size)
            }
        })
    }

    /// How its flash is divided.
    pub fn geometry(&self) -> Geometry {
        self.geometry
    }

    /// The medium.
    pub fn medium(&self) -> &M {
        &self.medium
    }

    /// Closes the device. Its medium can be opened again, or kept elsewhere.
    pub fn into_medium(self) -> M {
        self.medium
    }

    /// Makes what is due. Where the medium fails it, the device goes on over what the medium holds.
    fn keep_up(&mut self) -> Result<(), Failure<M::Error>> {
        let outcome = self.make_changes();
        if let Err(Failure::Medium(_)) = outcome {
            self.is_behind = true;
            // If this fails too, the next access tries it again.
            let _ = self.catch_up();
        }
        outcome
    }

    /// Has a device that fell behind go on over what its medium holds.
    fn catch_up(&mut self) -> Result<(), Failure<M::Error>> {
        if !self.is_behind {
            return Ok(());
        }
        let bytes = self.medium.contents().map_err(Failure::Medium)?;
        // SAFETY: the bytes and the handle live as long as the call.
        answer(unsafe {
            raw::apei_c_erst_failed(self.handle.erst(), bytes.as_ptr(), bytes.len())
        })?;
        self.make_changes()?;
        self.is_behind = false;
        Ok(())
    }

    fn make_changes(&mut self) -> Result<(), Failure<M::Error>> {
        let mut bytes = [0; raw::PROGRAM_MAX];
        loop {
            let mut change = raw::Change::default();
            // SAFETY: `bytes` has the room that is told, and the references live as long as the call.
            let status = unsafe {
                raw::apei_c_erst_change(
                    self.handle.erst(),
                    &mut change,
                    bytes.as_mut_ptr(),
                    bytes.len(),
                )
            };
            if status == NONE {
                return Ok(());
            }
            answer(status)?;
            make(&mut self.medium, &change, &bytes).map_err(Failure::Medium)?;
            // SAFETY: the handle lives as long as the call.
            answer(unsafe { raw::apei_c_erst_done(self.handle.erst()) })?;
        }
    }
}

fn register_size(length: usize) -> Result<u32, Error> {
    match length {
        1 | 2 | 4 | 8 => Ok(length as u32),
        _ => Err(Error::Access),
    }
}
