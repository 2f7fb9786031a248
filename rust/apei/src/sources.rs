use crate::error::{answer, Error, Failure, NONE, WAITS};
use crate::guest::{Guest, Place};
use crate::raw;
use crate::sized::sized;
use alloc::vec::Vec;
use core::cell::UnsafeCell;
use core::fmt;

/// A register, as a Generic Address Structure describes it (ACPI 6.4, section 5.2.3.2).
#[derive(Clone, Copy, Debug, PartialEq, Eq, Hash)]
pub struct Register {
    /// Where one access finds it.
    pub place: Place,
    /// The bits of its field.
    pub width: u8,
    /// The field's first bit.
    pub offset: u8,
    /// 1, 2, 3 or 4 for an access of 1, 2, 4 or 8 bytes.
    pub access: u8,
}

impl Register {
    /// All 8 bytes at an address of memory.
    pub fn at(address: u64) -> Self {
        Register {
            place: Place::Memory(address),
            width: 64,
            offset: 0,
            access: 4,
        }
    }

    fn as_raw(self) -> raw::Register {
        let (space, address) = match self.place {
            Place::Memory(address) => (0, address),
            Place::Io(address) => (1, address),
        };
        raw::Register {
            space,
            width: self.width,
            offset: self.offset,
            access: self.access,
            reserved: 0,
            address,
        }
    }
}

/// How a source notifies the guest (ACPI 6.4, section 18.3.2.9).
#[derive(Clone, Copy, Debug, Default, PartialEq, Eq, Hash)]
pub struct Notification {
    /// Table 18-13: 0 polled, 1 external interrupt, 3 SCI, 4 NMI, 10 GSIV, and others up to 11.
    pub kind: u8,
    /// Milliseconds between two looks of the guest, if it polls.
    pub poll_interval: u32,
    /// The interrupt's vector.
    pub vector: u32,
}

impl Notification {
    /// The structure's bytes.
    fn bytes(self) -> [u8; 28] {
        let mut bytes = [0; 28];
        bytes[0] = self.kind;
        bytes[1] = 28;
        bytes[4..8].copy_from_slice(&self.poll_interval.to_le_bytes());
        bytes[8..12].copy_from_slice(&self.vector.to_le_bytes());
        bytes
    }
}

/// A read acknowledge register: an acknowledgement keeps the bits `preserve` of its field and sets the bits `write`.
#[derive(Clone, Copy, Debug, PartialEq, Eq, Hash)]
pub struct Acknowledge {
    /// Where it is.
    pub register: Register,
    /// The bits that stay.
    pub preserve: u64,
    /// The bits that are set.
    pub write: u64,
}

/// A generic hardware error source (ACPI 6.4, section 18.3.2.7), and with an acknowledge register one of version 2.
#[derive(Clone, Copy, Debug, PartialEq, Eq, Hash)]
pub struct Source {
    /// Its identifier.
    pub id: u16,
    /// How it notifies the guest.
    pub notification: Notification,
    /// Where the guest finds the block's address.
    pub address: Register,
    /// The block's window: memory that the guest uses for nothing else.
    pub block: u64,
    /// The window's bytes, 20 to 65,536.
    pub length: u32,
    /// How many blocks may be submitted and not acknowledged.
    pub places: u32,
    /// The acknowledge register.
    pub acknowledge: Option<Acknowledge>,
}

impl Source {
    fn as_raw(&self) -> raw::Source {
        let acknowledge = self.acknowledge;
        raw::Source {
            kind: if acknowledge.is_some() { 10 } else { 9 },
            id: self.id,
            related: 0xFFFF,
            flags: 0,
            enabled: 1,
            records: 1,
            sections: 1,
            raw: 0,
            length: self.length,
            notification: self.notification.bytes(),
            places: self.places,
            address: self.address.as_raw(),
            block: self.block,
            ack: acknowledge.map_or_else(raw::Register::default, |it| it.register.as_raw()),
            preserve: acknowledge.map_or(0, |it| it.preserve),
            write: acknowledge.map_or(0, |it| it.write),
        }
    }
}

/// Why a source does nothing further.
#[derive(Clone, Copy, Debug, PartialEq, Eq, Hash)]
pub enum Stop {
    /// It has no block.
    Rests,
    /// The guest has not acknowledged yet: serve the source again later.
    Waits,
}

/// What becomes of the blocks that a guest has not acknowledged when it starts again.
#[derive(Clone, Copy, Debug, PartialEq, Eq, Hash)]
pub enum Unacknowledged {
    /// They are told again, the oldest one first.
    TellAgain = 0,
    /// They are forgotten.
    Forget = 1,
}

/// Why sources are refused, and which of them is the reason, from 0 on.
#[derive(Clone, Copy, Debug, PartialEq, Eq, Hash)]
pub struct Refused {
    /// The reason.
    pub error: Error,
    /// The source; none where no source is the reason.
    pub source: Option<usize>,
}

impl fmt::Display for Refused {
    fn fmt(&self, f: &mut fmt::Formatter<'_>) -> fmt::Result {
        match self.source {
            Some(source) => write!(f, "source {source}: {}", self.error),
            None => self.error.fmt(f),
        }
    }
}

impl core::error::Error for Refused {}

/// The error sources of a guest (ACPI 6.4, section 18.3.2): blocks that are submitted are put into its memory, one after another.
///
/// A guest that keeps to the reader's side takes the blocks of each source whole, each once, in the order of [`Sources::submit`].
/// Whatever any other guest does, no access leaves the window and the registers of its source.
pub struct Sources<G> {
    handle: Handle,
    guest: G,
}

/// The archive's handle of open sources, which closes them. Its calls take no lock, so no two threads reach it at once.
struct Handle(UnsafeCell<raw::Ghes>);

// SAFETY: what the handle owns is reached by nothing else.
unsafe impl Send for Handle {}

impl Handle {
    fn ghes(&self) -> *mut raw::Ghes {
        self.0.get()
    }
}

impl Drop for Handle {
    fn drop(&mut self) {
        // SAFETY: the handle is these sources' alone.
        unsafe { raw::apei_c_ghes_close(self.ghes()) };
    }
}

impl<G: fmt::Debug> fmt::Debug for Sources<G> {
    fn fmt(&self, f: &mut fmt::Formatter<'_>) -> fmt::Result {
        f.debug_struct("Sources")
            .field("guest", &self.guest)
            .finish_non_exhaustive()
    }
}

impl<G: Guest> Sources<G> {
    /// Opens 1 to 64 sources, which are numbered from 0 in this order. Serve each before the guest runs.
    pub fn open(guest: G, sources: &[Source]) -> Result<Self, Refused> {
        let numbers: Vec<_> = sources.iter().map(Source::as_raw).collect();
        let handle = Handle(UnsafeCell::new(raw::Ghes::closed()));
        let mut index = u64::MAX;
        // SAFETY: the sources and the references live as long as the call.
        let status = unsafe {
            raw::apei_c_ghes_open(handle.ghes(), numbers.as_ptr(), numbers.len(), &mut index)
        };
        match answer(status) {
            Ok(()) => Ok(Sources { handle, guest }),
            Err(error) => Err(Refused {
                error,
                source: (index != u64::MAX).then_some(index as usize),
            }),
        }
    }

    /// The Hardware Error Source Table (ACPI 6.4, section 18.3.2) of the sources, sealed: give it to the guest.
    pub fn table(&self) -> Vec<u8> {
        sized(|bytes, size| {
            // SAFETY: the bytes and the references live as long as the call.
            unsafe {
                raw::apei_c_ghes_table(self.handle.ghes(), bytes.as_mut_ptr(), bytes.len(), size)
            }
        })
        .unwrap_or_default()
    }

    /// Takes a copy of an error status block (ACPI 6.4, section 18.3.2.7.1). [`Sources::serve`] puts it into the guest's memory.
    pub fn submit(&mut self, source: u32, block: &[u8]) -> Result<(), Error> {
        // SAFETY: the block and the handle live as long as the call.
        answer(unsafe {
            raw::apei_c_ghes_submit(self.handle.ghes(), source, block.as_ptr(), block.len())
        })
    }

    /// Makes the accesses of a source until it rests, or waits for the guest. Other sources go on meanwhile.
    pub fn serve(&mut self, source: u32) -> Result<Stop, Failure<G::Error>> {
        let mut bytes = [0; raw::ACCESS_MAX];
        loop {
            let mut access = raw::Access::default();
            // SAFETY: `bytes` has the room that is told, and the references live as long as the call.
            let status = unsafe {
                raw::apei_c_ghes_access(
                    self.handle.ghes(),
                    source,
                    &mut access,
                    bytes.as_mut_ptr(),
                    bytes.len(),
                )
            };
            if status == NONE {
                return Ok(Stop::Rests);
            }
            answer(status)?;
            let value = self.make(source, &access, &bytes).map_err(Failure::Guest)?;
            // SAFETY: the handle lives as long as the call.
            match unsafe { raw::apei_c_ghes_done(self.handle.ghes(), source, value) } {
                WAITS => return Ok(Stop::Waits),
                status => answer(status)?,
            }
        }
    }

    fn make(&mut self, source: u32, access: &raw::Access, bytes: &[u8]) -> Result<u64, G::Error> {
        let place = match access.space {
            0 => Place::Memory(access.address),
            _ => Place::Io(access.address),
        };
        match access.kind {
            raw::READ => return self.guest.read(place, access.length),
            raw::WRITE => self.guest.write(place, &bytes[..access.length as usize])?,
            _ => self.guest.notify(source)?,
        }
        Ok(0)
    }

    /// The guest was reset. Serve the source before it runs again.
    pub fn reset(&mut self, source: u32, blocks: Unacknowledged) -> Result<(), Error> {
        // SAFETY: the handle lives as long as the call.
        answer(unsafe { raw::apei_c_ghes_reset(self.handle.ghes(), source, blocks as u32) })
    }

    /// The guest.
    pub fn guest(&self) -> &G {
        &self.guest
    }

    /// The guest, to be changed.
    pub fn guest_mut(&mut self) -> &mut G {
        &mut self.guest
    }
}
