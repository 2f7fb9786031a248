use crate::error::{BAD, NONE};
use crate::raw;
use core::fmt;

/// What bytes are checked to be.
#[derive(Clone, Copy, Debug, PartialEq, Eq, Hash)]
pub enum Item {
    /// An Error Record Serialization Table (ACPI 6.4, section 18.5.1); its parts are instruction entries.
    Erst = 0,
    /// A Hardware Error Source Table (section 18.3.2); its parts are error sources.
    Hest = 1,
    /// A Boot Error Record Table (section 18.3.1), without parts.
    Bert = 2,
    /// An error record (UEFI 2.8, appendix N.2); its parts are sections.
    Record = 3,
    /// A generic error status block (ACPI 6.4, section 18.3.2.7.1); its parts are data entries.
    Block = 4,
}

/// Which fault an item has.
#[derive(Clone, Copy, Debug, PartialEq, Eq, Hash)]
#[non_exhaustive]
pub enum FaultKind {
    /// There is no item of this number.
    Item,
    /// Fewer bytes than a table's header has.
    TableShort,
    /// The table's signature is another one.
    TableSignature,
    /// The length is below the table's fixed part, or above the bytes that are there.
    TableLength,
    /// The table's bytes do not add to 0 modulo 256.
    TableSum,
    /// The serialization header size is neither 48 nor 12.
    HeaderSize,
    /// The length is not that of a header and the counted entries.
    EntryCount,
    /// An error source of a type whose length is not known.
    SourceType,
    /// An error source leaves the table.
    SourceCut,
    /// More or fewer error sources than the count says.
    SourceCount,
    /// Bytes of the record are missing.
    RecordShort,
    /// The record does not begin with "CPER".
    RecordStart,
    /// The signature's end is not 0xFFFFFFFF.
    RecordEnd,
    /// The length is too small for header and descriptors.
    RecordLength,
    /// A section is not between the descriptors and the end.
    RecordSection,
    /// The record is longer than what is taken.
    RecordLimit,
    /// Bytes of the block are missing.
    BlockShort,
    /// The block status is 0.
    BlockStatus,
    /// The raw data begins before the entries end.
    BlockRaw,
    /// A data entry leaves the data length.
    BlockEntry,
    /// Too few bytes for a data entry after the last one.
    BlockRest,
    /// The archive told a number that this crate does not know.
    Unknown(u32),
}

impl FaultKind {
    /// The kind of a number of `enum apei_fault_kind` in `apei.h`.
    fn of(number: u32) -> Self {
        match number {
            0 => FaultKind::Item,
            1 => FaultKind::TableShort,
            2 => FaultKind::TableSignature,
            3 => FaultKind::TableLength,
            4 => FaultKind::TableSum,
            5 => FaultKind::HeaderSize,
            6 => FaultKind::EntryCount,
            7 => FaultKind::SourceType,
            8 => FaultKind::SourceCut,
            9 => FaultKind::SourceCount,
            10 => FaultKind::RecordShort,
            11 => FaultKind::RecordStart,
            12 => FaultKind::RecordEnd,
            13 => FaultKind::RecordLength,
            14 => FaultKind::RecordSection,
            15 => FaultKind::RecordLimit,
            16 => FaultKind::BlockShort,
            17 => FaultKind::BlockStatus,
            18 => FaultKind::BlockRaw,
            19 => FaultKind::BlockEntry,
            20 => FaultKind::BlockRest,
            other => FaultKind::Unknown(other),
        }
    }
}

impl fmt::Display for FaultKind {
    fn fmt(&self, f: &mut fmt::Formatter<'_>) -> fmt::Result {
        f.write_str(match self {
            FaultKind::Item => "there is no item of this number",
            FaultKind::TableShort => "fewer bytes than a table's header has",
            FaultKind::TableSignature => "the table's signature is another one",
            FaultKind::TableLength => {
                "the length is below the table's fixed part, or above the bytes that are there"
            }
            FaultKind::TableSum => "the table's bytes do not add to 0 modulo 256",
            FaultKind::HeaderSize => "the serialization header size is neither 48 nor 12",
            FaultKind::EntryCount => "the length is not that of a header and the counted entries",
            FaultKind::SourceType => "an error source of a type whose length is not known",
            FaultKind::SourceCut => "an error source leaves the table",
            FaultKind::SourceCount => "more or fewer error sources than the count says",
            FaultKind::RecordShort => "bytes of the record are missing",
            FaultKind::RecordStart => "the record does not begin with \"CPER\"",
            FaultKind::RecordEnd => "the signature's end is not 0xFFFFFFFF",
            FaultKind::RecordLength => "the length is too small for header and descriptors",
            FaultKind::RecordSection => "a section is not between the descriptors and the end",
            FaultKind::RecordLimit => "the record is longer than what is taken",
            FaultKind::BlockShort => "bytes of the block are missing",
            FaultKind::BlockStatus => "the block status is 0",
            FaultKind::BlockRaw => "the raw data begins before the entries end",
            FaultKind::BlockEntry => "a data entry leaves the data length",
            FaultKind::BlockRest => "too few bytes for a data entry after the last one",
            FaultKind::Unknown(number) => return write!(f, "fault {number}"),
        })
    }
}

/// The first fault of an item: where it stands, and which.
#[derive(Clone, Copy, Debug, PartialEq, Eq, Hash)]
pub struct Fault {
    /// The byte of the item at which it stands.
    pub offset: u64,
    /// Which it is.
    pub kind: FaultKind,
}

impl fmt::Display for Fault {
    fn fmt(&self, f: &mut fmt::Formatter<'_>) -> fmt::Result {
        write!(f, "{} (byte {})", self.kind, self.offset)
    }
}

impl core::error::Error for Fault {}

/// A part of an item.
#[derive(Clone, Copy, Debug, PartialEq, Eq, Hash)]
pub struct Part<'a> {
    /// The entry or source as a whole, the descriptor of a section, or the header of a data entry.
    pub header: &'a [u8],
    /// The bytes that it describes.
    pub body: &'a [u8],
    /// The action of an instruction entry, the type of an error source, 0 for others.
    pub kind: u32,
}

/// The parts of an item that is well formed, one after another.
#[derive(Clone, Debug)]
pub struct Parts<'a> {
    item: Item,
    bytes: &'a [u8],
    next: u32,
    count: u32,
}

/// Whether bytes are a whole, well-formed item, and its parts. The bytes may go on behind the item.
pub fn check(item: Item, bytes: &[u8]) -> Result<Parts<'_>, Fault> {
    let mut count = 0;
    let mut fault = raw::Fault::default();
    // SAFETY: the bytes and the references live as long as the call.
    let status = unsafe {
        raw::apei_c_check(
            item as u32,
            bytes.as_ptr(),
            bytes.len(),
            &mut count,
            &mut fault,
        )
    };
    if status == BAD {
        return Err(Fault {
            offset: fault.offset,
            kind: FaultKind::of(fault.kind),
        });
    }
    Ok(Parts {
        item,
        bytes,
        next: 0,
        count,
    })
}

impl<'a> Iterator for Parts<'a> {
    type Item = Part<'a>;

    fn next(&mut self) -> Option<Part<'a>> {
        let mut part = raw::Part::default();
        // SAFETY: the bytes and the part live as long as the call.
        let status = unsafe {
            raw::apei_c_part_at(
                self.item as u32,
                self.bytes.as_ptr(),
                self.bytes.len(),
                self.next,
                &mut part,
            )
        };
        if status == NONE || status == BAD {
            return None;
        }
        self.next += 1;
        Some(Part {
            header: slice(self.bytes, part.offset, part.length),
            body: slice(self.bytes, part.body, part.body_length),
            kind: part.kind,
        })
    }

    fn size_hint(&self) -> (usize, Option<usize>) {
        let left = self.count.saturating_sub(self.next) as usize;
        (left, Some(left))
    }
}

impl ExactSizeIterator for Parts<'_> {}

fn slice(bytes: &[u8], offset: u64, length: u64) -> &[u8] {
    &bytes[offset as usize..][..length as usize]
}
