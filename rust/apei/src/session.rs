use crate::error::{answer, Error, NONE};
use crate::guest::Place;
use crate::raw;
use core::cell::UnsafeCell;

/// What a [`Session`] wants done next.
#[derive(Clone, Copy, Debug, PartialEq, Eq)]
pub enum Demand {
    /// Read a register of 1, 2, 4 or 8 bytes in one access, and answer the number.
    Load {
        /// Where it stands.
        place: Place,
        /// Its bytes.
        size: u32,
    },
    /// Write the low bytes of a number to a register in one access.
    Store {
        /// Where it stands.
        place: Place,
        /// Its bytes.
        size: u32,
        /// The number.
        value: u64,
    },
    /// Wait.
    Wait {
        /// So many microseconds, which may be 0.
        micros: u64,
    },
    /// Copy bytes of memory, which may overlap their target.
    Copy {
        /// From this address.
        from: u64,
        /// To this one.
        to: u64,
        /// So many.
        length: u64,
    },
    /// Write the bytes of the record that is being written.
    PutRecord {
        /// At this address.
        address: u64,
    },
    /// Then write these two bytes over them.
    PutMark {
        /// At this address.
        address: u64,
        /// "ER".
        bytes: [u8; 2],
    },
    /// Read four bytes, and answer the number that they are, the low byte first.
    TakeLength {
        /// At this address.
        address: u64,
    },
    /// Read bytes into the buffer of the read: they are the record.
    TakeRecord {
        /// At this address.
        address: u64,
        /// So many.
        length: u64,
    },
}

/// A command of a [`Session`], but for a write.
#[derive(Clone, Copy, Debug, PartialEq, Eq)]
pub enum Command {
    /// Reads the record of this identifier into a buffer of `room` bytes.
    Read {
        /// The identifier.
        id: u64,
        /// The bytes of the buffer.
        room: u64,
    },
    /// Clears the record of this identifier.
    Clear(u64),
    /// Goes through a write that stores nothing.
    DummyWrite,
    /// Asks how many records are stored.
    Count,
    /// Asks for the identifier at the firmware's cursor.
    Next,
}

/// What a firmware says of its error log address range.
#[derive(Clone, Copy, Debug, PartialEq, Eq)]
pub struct Range {
    /// Its address in memory.
    pub address: u64,
    /// Its bytes.
    pub length: u64,
    /// The microseconds that a command takes at most and nominally, if the firmware names them.
    pub times: Option<(u32, u32)>,
}

/// The operating system's side of an ERST, which makes no access: it tells each, and takes its answer. After it was opened it takes no memory
/// and no lock.
///
/// As an iterator it tells the same demand until that is answered, and `None` once the command has ended.
pub struct Session(UnsafeCell<raw::Client>);

// SAFETY: what the handle owns is reached by nothing else.
unsafe impl Send for Session {}

impl Drop for Session {
    fn drop(&mut self) {
        // SAFETY: the handle is this session's alone.
        unsafe { raw::apei_c_client_close(self.0.get()) };
    }
}

impl Session {
    /// A session over a copy of a table, which begins to attach: its first command may begin once what it tells was done.
    pub fn open(table: &[u8]) -> Result<Self, Error> {
        let session = Session(UnsafeCell::new(raw::Client::closed()));
        // SAFETY: the table and the handle live as long as the call.
        answer(unsafe { raw::apei_c_client_open(session.0.get(), table.as_ptr(), table.len()) })?;
        Ok(session)
    }

    /// What attaching found.
    pub fn range(&self) -> Result<Range, Error> {
        let mut told = raw::Range::default();
        // SAFETY: the handle lives as long as the call, and no other call is in it.
        answer(unsafe { raw::apei_c_client_range(self.0.get(), &mut told) })?;
        let times = (told.greatest, told.nominal);
        Ok(Range {
            address: told.address,
            length: told.length,
            times: Some(times).filter(|&times| times != (0, 0)),
        })
    }

    /// Begins to write a record, whose bytes stay with the caller.
    pub fn write(&mut self, record: &[u8]) -> Result<(), Error> {
        // SAFETY: the record and the handle live as long as the call.
        answer(unsafe { raw::apei_c_client_write(self.0.get(), record.as_ptr(), record.len()) })
    }

    /// Begins another command.
    pub fn begin(&mut self, command: Command) -> Result<(), Error> {
        let (number, id, room) = match command {
            Command::Read { id, room } => (0, id, room),
            Command::Clear(id) => (1, id, 0),
            Command::DummyWrite => (2, 0, 0),
            Command::Count => (3, 0, 0),
            Command::Next => (4, 0, 0),
        };
        self.start(number, id, room, &mut [])
    }

    /// Begins to list all identifiers, each once, into a buffer that stays with the caller.
    pub fn list(&mut self, ids: &mut [u64]) -> Result<(), Error> {
        self.start(LIST, 0, 0, ids)
    }

    fn start(&mut self, command: u32, id: u64, room: u64, ids: &mut [u64]) -> Result<(), Error> {
        // SAFETY: the buffer and the handle live as long as the call.
        answer(unsafe {
            let (places, count) = (ids.as_mut_ptr(), ids.len());
            raw::apei_c_client_begin(self.0.get(), command, id, room, places, count)
        })
    }

    /// Says that it was done, with the number that was read or 0, or that it failed. A listing takes its buffer each time.
    pub fn answer<E>(&mut self, told: Result<u64, E>, ids: &mut [u64]) -> Result<(), Error> {
        let (failed, value) = told.map_or((1, 0), |value| (0, value));
        // SAFETY: the buffer and the handle live as long as the call.
        answer(unsafe {
            let (places, count) = (ids.as_mut_ptr(), ids.len());
            raw::apei_c_client_answer(self.0.get(), failed, value, places, count)
        })
    }

    /// The command's answer, once it has ended: a number, or 0 where it has none.
    pub fn result(&self) -> Result<u64, Error> {
        let mut value = 0;
        // SAFETY: the handle lives as long as the call, and no other call is in it.
        answer(unsafe { raw::apei_c_client_result(self.0.get(), &mut value) })?;
        Ok(value)
    }
}

const LIST: u32 = 5;

impl Iterator for Session {
    type Item = Demand;

    fn next(&mut self) -> Option<Demand> {
        let mut told = raw::Demand::default();
        // SAFETY: the handle lives as long as the call.
        let status = unsafe { raw::apei_c_client_demand(self.0.get(), &mut told) };
        debug_assert!(status == 0 || status == NONE);
        if status != 0 {
            return None;
        }
        let address = told.address;
        let place = match told.space {
            0 => Place::Memory(address),
            _ => Place::Io(address),
        };
        let size = told.length as u32;
        Some(match told.kind {
            0 => Demand::Load { place, size },
            1 => Demand::Store {
                place,
                size,
                value: told.value,
            },
            2 => Demand::Wait { micros: told.value },
            3 => Demand::Copy {
                from: address,
                to: told.value,
                length: told.length,
            },
            4 => Demand::PutRecord { address },
            5 => Demand::PutMark {
                address,
                bytes: (told.value as u16).to_le_bytes(),
            },
            6 => Demand::TakeLength { address },
            _ => Demand::TakeRecord {
                address,
                length: told.length,
            },
        })
    }
}
