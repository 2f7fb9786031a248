use crate::error::{answer, Error, Failure, NONE};
use crate::medium::Medium;
use crate::raw;

/// How a medium's flash is divided: slots of some sectors each.
#[derive(Clone, Copy, Debug, PartialEq, Eq, Hash)]
pub struct Geometry {
    sector: u32,
    sectors_per_slot: u32,
    slots: u32,
}

impl Geometry {
    /// Sectors of a power of two from 256 to 32,768 bytes, 2 to 16 of them a slot, 2 to 1,024 slots: at most 64 MiB, and at most
    /// 65,600 bytes a slot.
    pub fn new(sector: u32, sectors_per_slot: u32, slots: u32) -> Result<Self, Error> {
        let geometry = Geometry {
            sector,
            sectors_per_slot,
            slots,
        };
        geometry.size()?;
        Ok(geometry)
    }

    /// The bytes of a sector.
    pub fn sector(&self) -> u32 {
        self.sector
    }

    /// The sectors of a slot.
    pub fn sectors_per_slot(&self) -> u32 {
        self.sectors_per_slot
    }

    /// The slots, each of which holds one record or none.
    pub fn slots(&self) -> u32 {
        self.slots
    }

    /// That of a medium, as its first sector tells it (docs/EMBED.md has its bytes); none where these are no medium's.
    pub(crate) fn of_medium(bytes: &[u8]) -> Option<Self> {
        let number = |at: usize| Some(u32::from_le_bytes(bytes.get(at..at + 4)?.try_into().ok()?));
        Geometry::new(number(16)?, number(20)?, number(24)?).ok()
    }

    /// The bytes of a medium of this geometry.
    pub fn medium_size(&self) -> u64 {
        self.size().unwrap_or(0)
    }

    fn size(&self) -> Result<u64, Error> {
        let mut size = 0;
        // SAFETY: both references live as long as the call.
        answer(unsafe { raw::apei_c_medium_size(&self.as_raw(), &mut size) })?;
        Ok(size)
    }

    /// The bytes of memory that the opening of a device of this geometry takes.
    pub fn memory_size(&self) -> u64 {
        let mut bytes = 0;
        // SAFETY: both references live as long as the call.
        match answer(unsafe { raw::apei_c_memory_size(&self.as_raw(), &mut bytes) }) {
            Ok(()) => bytes,
            Err(_) => 0,
        }
    }

    pub(crate) fn as_raw(self) -> raw::Geometry {
        raw::Geometry {
            sector: self.sector,
            sectors_per_slot: self.sectors_per_slot,
            slots: self.slots,
        }
    }
}

/// Makes a medium of this geometry, without records. Where it fails or power is lost, format the medium again: it is foreign
/// until then.
pub fn format<M: Medium>(medium: &mut M, geometry: Geometry) -> Result<(), Failure<M::Error>> {
    let mut bytes = [0; raw::PROGRAM_MAX];
    for step in 0.. {
        let mut change = raw::Change::default();
        // SAFETY: `bytes` has the room that is told, and the references live as long as the call.
        let status = unsafe {
            raw::apei_c_format_change(
                &geometry.as_raw(),
                step,
                &mut change,
                bytes.as_mut_ptr(),
                bytes.len(),
            )
        };
        if status == NONE {
            break;
        }
        answer(status)?;
        make(medium, &change, &bytes).map_err(Failure::Medium)?;
    }
    Ok(())
}

/// Makes a change on a medium.
pub(crate) fn make<M: Medium>(
    medium: &mut M,
    change: &raw::Change,
    bytes: &[u8],
) -> Result<(), M::Error> {
    if change.kind == raw::PROGRAM {
        medium.program(change.offset, &bytes[..change.length as usize])
    } else {
        medium.erase(change.offset, change.length)
    }
}
