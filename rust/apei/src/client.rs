use crate::error::Error;
use crate::guest::Place;
use crate::session::{Command, Demand, Session};

/// What a [`Client`] reaches of the machine: registers and memory that a firmware's table names.
pub trait Registers {
    /// How it fails. A command whose access failed ends with [`Error::Fault`].
    type Error;

    /// Reads a register of 1, 2, 4 or 8 bytes in one access.
    fn load(&mut self, place: Place, size: u32) -> Result<u64, Self::Error>;

    /// Writes the low bytes of a number to a register in one access.
    fn store(&mut self, place: Place, size: u32, value: u64) -> Result<(), Self::Error>;

    /// Waits so many microseconds, which may be 0.
    fn wait(&mut self, micros: u64);

    /// Reads memory.
    fn read(&mut self, address: u64, bytes: &mut [u8]) -> Result<(), Self::Error>;

    /// Writes memory.
    fn write(&mut self, address: u64, bytes: &[u8]) -> Result<(), Self::Error>;

    /// Copies memory, as MOVE_DATA does, also where the two overlap.
    fn copy(&mut self, from: u64, to: u64, length: u64) -> Result<(), Self::Error>;
}

/// A [`Session`] that makes each access by itself.
pub struct Client<R> {
    session: Session,
    registers: R,
}

/// What a command works on beside its registers.
enum Bytes<'a> {
    None,
    Record(&'a [u8]),
    Buffer(&'a mut [u8]),
    Identifiers(&'a mut [u64]),
}

impl<R: Registers> Client<R> {
    /// Attaches to a firmware by its table.
    pub fn attach(registers: R, table: &[u8]) -> Result<Self, Error> {
        let session = Session::open(table)?;
        let mut client = Client { session, registers };
        client.finish(Bytes::None)?;
        Ok(client)
    }

    /// Writes a record.
    pub fn write(&mut self, record: &[u8]) -> Result<(), Error> {
        self.session.write(record)?;
        self.finish(Bytes::Record(record)).map(drop)
    }

    /// Reads the record of an identifier, and says how many bytes it has.
    pub fn read(&mut self, id: u64, record: &mut [u8]) -> Result<usize, Error> {
        let room = record.len() as u64;
        self.session.begin(Command::Read { id, room })?;
        self.finish(Bytes::Buffer(record)).map(|len| len as usize)
    }

    /// Clears the record of an identifier.
    pub fn clear(&mut self, id: u64) -> Result<(), Error> {
        self.session.begin(Command::Clear(id))?;
        self.finish(Bytes::None).map(drop)
    }

    /// Goes through a write that stores nothing.
    pub fn dummy_write(&mut self) -> Result<(), Error> {
        self.session.begin(Command::DummyWrite)?;
        self.finish(Bytes::None).map(drop)
    }

    /// How many records are stored.
    pub fn count(&mut self) -> Result<u64, Error> {
        self.session.begin(Command::Count)?;
        self.finish(Bytes::None)
    }

    /// All identifiers, each once: how many were put into the buffer.
    pub fn list(&mut self, ids: &mut [u64]) -> Result<usize, Error> {
        self.session.list(ids)?;
        self.finish(Bytes::Identifiers(ids)).map(|n| n as usize)
    }

    /// The registers.
    pub fn registers(&self) -> &R {
        &self.registers
    }

    fn finish(&mut self, mut bytes: Bytes<'_>) -> Result<u64, Error> {
        while let Some(demand) = self.session.next() {
            let told = self.make(demand, &mut bytes);
            let ids = match &mut bytes {
                Bytes::Identifiers(ids) => &mut **ids,
                _ => &mut [],
            };
            self.session.answer(told, ids)?;
        }
        self.session.result()
    }

    fn make(&mut self, demand: Demand, bytes: &mut Bytes<'_>) -> Result<u64, R::Error> {
        let registers = &mut self.registers;
        match (demand, bytes) {
            (Demand::Load { place, size }, _) => return registers.load(place, size),
            (Demand::Store { place, size, value }, _) => registers.store(place, size, value)?,
            (Demand::Wait { micros }, _) => registers.wait(micros),
            (Demand::Copy { from, to, length }, _) => registers.copy(from, to, length)?,
            (Demand::PutRecord { address }, Bytes::Record(record)) => {
                registers.write(address, record)?;
            }
            (Demand::PutMark { address, bytes }, _) => registers.write(address, &bytes)?,
            (Demand::TakeLength { address }, _) => {
                let mut length = [0; 4];
                registers.read(address, &mut length)?;
                return Ok(u64::from(u32::from_le_bytes(length)));
            }
            (Demand::TakeRecord { address, length }, Bytes::Buffer(buffer)) => {
                registers.read(address, &mut buffer[..length as usize])?;
            }
            (Demand::PutRecord { .. } | Demand::TakeRecord { .. }, _) => {
                unreachable!("a write has a record, and a read a buffer")
            }
        }
        Ok(0)
    }
}
