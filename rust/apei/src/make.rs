use crate::error::Error;
use crate::raw;
use crate::sized::sized;
use alloc::vec::Vec;

/// How severe an error is.
#[derive(Clone, Copy, Debug, PartialEq, Eq, Hash)]
pub enum Severity {
    /// It was not corrected, and the machine goes on.
    Recoverable = 0,
    /// It ends the machine.
    Fatal = 1,
    /// It was corrected.
    Corrected = 2,
    /// It is none, but worth to be told.
    Informational = 3,
}

/// What an error status block says of its section. A GUID is 16 bytes as tables have it: fields of 4, 2 and 2 bytes with their low
/// byte first, and 8 bytes. A timestamp has, from its low byte on, seconds, minutes, hours, a flag (1: precise), day, month, year and
/// century, each in binary coded decimal (UEFI 2.8, section N.2.1).
#[derive(Clone, Copy, Debug, PartialEq, Eq, Hash)]
pub struct BlockFields {
    /// How severe the error is.
    pub severity: Severity,
    /// The section's type, a GUID.
    pub kind: [u8; 16],
    /// The section's flags (UEFI 2.8, section N.2.2).
    pub flags: u8,
    /// The unit to be replaced, a GUID.
    pub fru: Option<[u8; 16]>,
    /// Its name, with zeros after it.
    pub fru_text: Option<[u8; 20]>,
    /// When the error was.
    pub timestamp: Option<u64>,
}

/// What an error record says of itself and of its section, which has the record's severity. GUIDs and timestamps are as in
/// [`BlockFields`].
#[derive(Clone, Copy, Debug, PartialEq, Eq, Hash)]
pub struct RecordFields {
    /// Its identifier.
    pub id: u64,
    /// How severe the error is.
    pub severity: Severity,
    /// When the error was.
    pub timestamp: Option<u64>,
    /// Who made the record, a GUID.
    pub creator: [u8; 16],
    /// How the operating system was told of the error, a GUID.
    pub notification: [u8; 16],
    /// The record's flags (UEFI 2.8, section N.2.1).
    pub flags: u32,
    /// The section's type, a GUID.
    pub kind: [u8; 16],
    /// The section's flags (section N.2.2).
    pub section_flags: u32,
    /// The unit to be replaced, a GUID.
    pub fru: Option<[u8; 16]>,
    /// Its name, with zeros after it.
    pub fru_text: Option<[u8; 20]>,
}

/// An error status block (ACPI 6.4, section 18.3.2.7.1) with one entry of revision 0x0300 around a section, and no raw data.
pub fn make_block(fields: &BlockFields, section: &[u8]) -> Result<Vec<u8>, Error> {
    let fields = raw::BlockFields {
        timestamp: fields.timestamp.unwrap_or(0),
        severity: fields.severity as u32,
        flags: fields.flags,
        has_timestamp: fields.timestamp.is_some().into(),
        has_fru: fields.fru.is_some().into(),
        has_fru_text: fields.fru_text.is_some().into(),
        kind: fields.kind,
        fru: fields.fru.unwrap_or([0; 16]),
        fru_text: fields.fru_text.unwrap_or([0; 20]),
        reserved: 0,
    };
    sized(|block, size| {
        // SAFETY: the section and the block have the lengths that are told.
        unsafe {
            raw::apei_c_make_block(
                &fields,
                section.as_ptr(),
                section.len(),
                block.as_mut_ptr(),
                block.len(),
                size,
            )
        }
    })
}

/// An error record (UEFI 2.8, section N.2) around a section.
pub fn make_record(fields: &RecordFields, section: &[u8]) -> Result<Vec<u8>, Error> {
    let fields = raw::RecordFields {
        id: fields.id,
        timestamp: fields.timestamp.unwrap_or(0),
        severity: fields.severity as u32,
        flags: fields.flags,
        section_flags: fields.section_flags,
        has_timestamp: fields.timestamp.is_some().into(),
        has_fru: fields.fru.is_some().into(),
        has_fru_text: fields.fru_text.is_some().into(),
        reserved: 0,
        creator: fields.creator,
        notification: fields.notification,
        kind: fields.kind,
        fru: fields.fru.unwrap_or([0; 16]),
        fru_text: fields.fru_text.unwrap_or([0; 20]),
        unused: 0,
    };
    sized(|record, size| {
        // SAFETY: the section and the record have the lengths that are told.
        unsafe {
            raw::apei_c_make_record(
                &fields,
                section.as_ptr(),
                section.len(),
                record.as_mut_ptr(),
                record.len(),
                size,
            )
        }
    })
}
