use core::fmt;

/// Why a call was refused. A refused call has changed nothing.
#[derive(Clone, Copy, Debug, PartialEq, Eq, Hash)]
#[non_exhaustive]
pub enum Error {
    /// Nothing stands at this offset of the window, or not of this size.
    Access,
    /// A change is due on the medium, which failed it.
    Due,
    /// An execution runs: let the guest end it, or reset the device. A boot error region was not written to its end.
    Busy,
    /// The device's own flash failed: no further change can be counted.
    Flash,
    /// There was no memory.
    Memory,
    /// Sectors, sectors a slot or slots are outside their limits, or are not the device's.
    Geometry,
    /// The medium does not begin with the library's own sector.
    Foreign,
    /// It does, with a version that this library does not know.
    Version,
    /// It does, for another size, or the flash has another size than its geometry.
    Size,
    /// A window does not end below 2^64, or the two windows overlap.
    Addresses,
    /// The bytes are not those of a saved device, or not all of them.
    Unsaved,
    /// They are of a version that this library does not know.
    SavedVersion,
    /// The flash of the saved device was divided otherwise.
    SavedFlash,
    /// There is no source of this number.
    Source,
    /// There are no sources, or more than 64.
    Count,
    /// Its notification has a type above 11.
    Notification,
    /// Its window has fewer than 20 or more than 65,536 bytes.
    Length,
    /// It has no place for a block, or more than 65,536.
    Places,
    /// The register of its block's address is none.
    AddressRegister,
    /// Its block's address does not fit this register's field.
    Address,
    /// Its acknowledge register is none.
    AckRegister,
    /// No bit acknowledges, or one lies outside the register's access.
    Mask,
    /// Its block stands at 0.
    Zero,
    /// Its block's address is no multiple of 4, or a register's none of its access.
    Alignment,
    /// A part ends past 2^64 - 1, or past port 65,535.
    Late,
    /// Two parts have a byte in common: of this source, or of it and an earlier one.
    Clash,
    /// An earlier source has the same identifier.
    Identifier,
    /// As many blocks wait as the source has places for.
    Full,
    /// The block is longer than the window, or than what is left of the region; or what is made would have 2^32 bytes or more.
    Long,
    /// The bytes are not exactly one error status block.
    Block,
    /// The region stands at 0 or at no multiple of 4, has fewer than 20 bytes, or ends past 2^64 - 1.
    Region,
    /// The bytes begin with no sealed, well-formed ERST.
    Table,
    /// The client has not attached to the firmware, or not yet.
    Unattached,
    /// The range is non-volatile memory itself.
    NonVolatile,
    /// The range has fewer bytes than an error record's header.
    NoRange,
    /// The firmware's store is full: command status 1.
    NoSpace,
    /// Its store is not available: command status 2, or a count or an identifier that is none.
    Hardware,
    /// The firmware failed: command status 3.
    Failed,
    /// Its store has no record: command status 4.
    Empty,
    /// Its store has no such record: command status 5.
    NotFound,
    /// The bytes do not begin with an error record.
    Frame,
    /// The record is longer than the range.
    TooLong,
    /// The buffer is shorter than the record, which the firmware has read all the same.
    Small,
    /// The record that was read says a length below its header's, or above the range's.
    BadLength,
    /// The firmware answered a command status that ACPI does not define.
    Status,
    /// Bytes follow the record.
    Trailing,
    /// The firmware stayed busy for the greatest time that it names.
    TooLate,
    /// A program of the table was still running after the steps that a command has.
    Steps,
    /// The table has no program for an action.
    NoAction,
    /// An access failed.
    Fault,
    /// A program of the table has an entry that is none.
    Program,
    /// There are more identifiers than the buffer has places.
    ListFull,
    /// There is no identifier behind the firmware's cursor.
    None,
    /// More identifiers are listed than the buffer has places.
    Short,
    /// The archive answered a status that this crate does not know.
    Unknown(u32),
}

impl fmt::Display for Error {
    fn fmt(&self, f: &mut fmt::Formatter<'_>) -> fmt::Result {
        f.write_str(match self {
            Error::Access => "nothing stands there, or not of this size",
            Error::Due => "a change is due on the medium",
            Error::Busy => "an execution runs, or a region is written",
            Error::Flash => "the flash failed",
            Error::Memory => "out of memory",
            Error::Geometry => "sectors or slots are outside their limits, or another device's",
            Error::Foreign => "the bytes are not the library's own",
            Error::Version => "the bytes have a version that is not known",
            Error::Size => "the bytes are not as many as the geometry has",
            Error::Addresses => "the windows overlap or do not end below 2^64",
            Error::Unsaved => "the bytes are not those of a saved device",
            Error::SavedVersion => "the device was saved in a version that is not known",
            Error::SavedFlash => "the device was saved over a flash that is divided otherwise",
            Error::Source => "there is no source of this number",
            Error::Count => "there are no sources, or more than 64",
            Error::Notification => "the source's notification has no known type",
            Error::Length => "the source's window has fewer than 20 or more than 65536 bytes",
            Error::Places => "the source has no place for a block, or more than 65536",
            Error::AddressRegister => "the register of the block's address is none",
            Error::Address => "the block's address does not fit its register",
            Error::AckRegister => "the acknowledge register is none",
            Error::Mask => "no bit acknowledges, or one outside the register",
            Error::Zero => "the block stands at 0",
            Error::Alignment => "the block or a register is not aligned",
            Error::Late => "a part of the source ends past 2^64 - 1 or past port 65535",
            Error::Clash => "two parts of sources have a byte in common",
            Error::Identifier => "an earlier source has the same identifier",
            Error::Full => "the source has no place for a further block",
            Error::Long => "the block or record is too long",
            Error::Block => "the bytes are not one error status block",
            Error::Region => "no region may stand there",
            Error::Table => "the bytes are no error record serialization table",
            Error::Unattached => "the client has not attached",
            Error::NonVolatile => "the range is non-volatile memory",
            Error::NoRange => "the range has no room for a record",
            Error::NoSpace => "the firmware's store is full",
            Error::Hardware => "the firmware's store is not available",
            Error::Failed => "the firmware failed",
            Error::Empty => "the firmware's store is empty",
            Error::NotFound => "there is no such record",
            Error::Frame => "the bytes begin with no error record",
            Error::TooLong => "the record is longer than the range",
            Error::Small => "the buffer is shorter than the record",
            Error::BadLength => "the record says a length that can't be",
            Error::Status => "the firmware answered an unknown status",
            Error::Trailing => "bytes follow the record",
            Error::TooLate => "the firmware stayed busy",
            Error::Steps => "a program of the table took too many steps",
            Error::NoAction => "the table has no program for an action",
            Error::Fault => "an access failed",
            Error::Program => "a program of the table is not well formed",
            Error::ListFull => "there are more identifiers than room",
            Error::None => "there is none",
            Error::Short => "the buffer is too small",
            Error::Unknown(status) => return write!(f, "status {status}"),
        })
    }
}

impl core::error::Error for Error {}

/// Why a call that reaches the medium or the guest failed.
#[derive(Debug)]
#[non_exhaustive]
pub enum Failure<E> {
    /// The library refused it.
    Refused(Error),
    /// The medium failed. Where it failed a change, the device goes on over what it holds.
    Medium(E),
    /// The guest's memory failed an access, which is tried again at the next call.
    Guest(E),
}

impl<E: fmt::Display> fmt::Display for Failure<E> {
    fn fmt(&self, f: &mut fmt::Formatter<'_>) -> fmt::Result {
        match self {
            Failure::Refused(error) => error.fmt(f),
            Failure::Medium(error) => write!(f, "the medium failed: {error}"),
            Failure::Guest(error) => write!(f, "the guest's memory failed: {error}"),
        }
    }
}

impl<E: core::error::Error + 'static> core::error::Error for Failure<E> {
    fn source(&self) -> Option<&(dyn core::error::Error + 'static)> {
        match self {
            Failure::Refused(error) => Some(error),
            Failure::Medium(error) | Failure::Guest(error) => Some(error),
        }
    }
}

impl<E> From<Error> for Failure<E> {
    fn from(error: Error) -> Self {
        Failure::Refused(error)
    }
}

pub(crate) const NONE: u32 = 7;
pub(crate) const BAD: u32 = 17;
pub(crate) const WAITS: u32 = 52;

pub(crate) fn answer(status: u32) -> Result<(), Error> {
    Err(match status {
        0 => return Ok(()),
        5 => Error::Access,
        6 => Error::Due,
        9 => Error::Busy,
        10 => Error::Flash,
        11 => Error::Memory,
        12 => Error::Geometry,
        13 => Error::Foreign,
        14 => Error::Version,
        15 => Error::Size,
        16 => Error::Addresses,
        18 => Error::Unsaved,
        19 => Error::SavedVersion,
        20 => Error::SavedFlash,
        32 => Error::Source,
        33 => Error::Count,
        37 => Error::Notification,
        38 => Error::Length,
        39 => Error::Places,
        40 => Error::AddressRegister,
        41 => Error::Address,
        42 => Error::AckRegister,
        43 => Error::Mask,
        44 => Error::Zero,
        45 => Error::Alignment,
        46 => Error::Late,
        47 => Error::Clash,
        48 => Error::Identifier,
        49 => Error::Full,
        50 => Error::Long,
        51 => Error::Block,
        54 => Error::Region,
        64 => Error::Table,
        65 => Error::Unattached,
        66 => Error::NonVolatile,
        67 => Error::NoRange,
        68 => Error::NoSpace,
        69 => Error::Hardware,
        70 => Error::Failed,
        71 => Error::Empty,
        72 => Error::NotFound,
        73 => Error::Frame,
        74 => Error::TooLong,
        75 => Error::Small,
        76 => Error::BadLength,
        77 => Error::Status,
        78 => Error::Trailing,
        79 => Error::TooLate,
        80 => Error::Steps,
        81 => Error::NoAction,
        82 => Error::Fault,
        83 => Error::Program,
        84 => Error::ListFull,
        7 => Error::None,
        8 => Error::Short,
        other => Error::Unknown(other),
    })
}
