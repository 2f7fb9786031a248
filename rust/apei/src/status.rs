use core::fmt;

/// How a command of the guest ended: what GET_COMMAND_STATUS leaves in VALUE (ACPI 6.4, section 18.5.1.1), for a log.
#[derive(Clone, Copy, Debug, PartialEq, Eq, Hash)]
pub enum CommandStatus {
    /// It was carried out.
    Success = 0,
    /// There is no room for the record.
    NotEnoughSpace = 1,
    /// The hardware is not available.
    HardwareNotAvailable = 2,
    /// It failed.
    Failed = 3,
    /// There is no record at all.
    RecordStoreEmpty = 4,
    /// There is no record of this identifier.
    RecordNotFound = 5,
}

impl CommandStatus {
    /// The status of a number; none where the standard has none.
    pub fn from_value(value: u64) -> Option<Self> {
        use CommandStatus::*;
        [
            Success,
            NotEnoughSpace,
            HardwareNotAvailable,
            Failed,
            RecordStoreEmpty,
            RecordNotFound,
        ]
        .into_iter()
        .find(|it| *it as u64 == value)
    }
}

impl fmt::Display for CommandStatus {
    fn fmt(&self, f: &mut fmt::Formatter<'_>) -> fmt::Result {
        f.write_str(match self {
            CommandStatus::Success => "success",
            CommandStatus::NotEnoughSpace => "not enough space",
            CommandStatus::HardwareNotAvailable => "hardware not available",
            CommandStatus::Failed => "failed",
            CommandStatus::RecordStoreEmpty => "record store empty",
            CommandStatus::RecordNotFound => "record not found",
        })
    }
}
