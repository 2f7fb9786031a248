//! A client over the library's own device: each command, and accesses that fail.

#[allow(dead_code)]
mod guest;

use apei::{
    Client, Command, Demand, Device, Error, MemoryMedium, Place, Registers, Session, Window,
};
use guest::{formatted, record, ADDRESSES};

/// The device's windows as memory, of which the access with a number fails.
struct Machine {
    device: Device<MemoryMedium>,
    made: u32,
    fails_at: Option<u32>,
}

impl Machine {
    fn new() -> Self {
        Machine {
            device: Device::open(formatted(), ADDRESSES).unwrap(),
            made: 0,
            fails_at: None,
        }
    }

    fn place(&mut self, address: u64) -> Result<(Window, u64), ()> {
        self.made += 1;
        if self.fails_at == Some(self.made) {
            return Err(());
        }
        if address >= ADDRESSES.log_range {
            return Ok((Window::LogRange, address - ADDRESSES.log_range));
        }
        Ok((Window::Registers, address - ADDRESSES.registers))
    }
}

impl Registers for Machine {
    type Error = ();

    fn load(&mut self, place: Place, size: u32) -> Result<u64, ()> {
        let Place::Memory(address) = place else {
            return Err(());
        };
        let mut bytes = [0; 8];
        self.read(address, &mut bytes[..size as usize])?;
        Ok(u64::from_le_bytes(bytes))
    }

    fn store(&mut self, place: Place, size: u32, value: u64) -> Result<(), ()> {
        let Place::Memory(address) = place else {
            return Err(());
        };
        self.write(address, &value.to_le_bytes()[..size as usize])
    }

    fn wait(&mut self, _micros: u64) {}

    fn read(&mut self, address: u64, bytes: &mut [u8]) -> Result<(), ()> {
        let (window, offset) = self.place(address)?;
        self.device.read(window, offset, bytes).map_err(drop)
    }

    fn write(&mut self, address: u64, bytes: &[u8]) -> Result<(), ()> {
        let (window, offset) = self.place(address)?;
        self.device.write(window, offset, bytes).map_err(drop)
    }

    fn copy(&mut self, _from: u64, _to: u64, _length: u64) -> Result<(), ()> {
        Err(())
    }
}

fn table() -> Vec<u8> {
    Machine::new().device.table()
}

fn attached() -> Client<Machine> {
    Client::attach(Machine::new(), &table()).unwrap()
}

/// The record as the store keeps it.
fn marked(id: u64, length: u32) -> Vec<u8> {
    let mut bytes = record(id, length);
    bytes[108..110].copy_from_slice(b"ER");
    bytes
}

#[test]
fn records_are_written_listed_read_and_cleared() {
    let mut client = attached();
    let mut ids = [0; 8];
    assert_eq!(client.list(&mut ids), Ok(0));
    for id in [5, 3, 9] {
        client.write(&record(id, 200)).unwrap();
    }
    client.dummy_write().unwrap();
    assert_eq!(client.count(), Ok(3));
    let found = client.list(&mut ids).unwrap();
    ids[..found].sort_unstable();
    assert_eq!(ids[..found], [3, 5, 9]);
    let mut bytes = [0; 200];
    assert_eq!(client.read(9, &mut bytes), Ok(200));
    assert_eq!(bytes[..], marked(9, 200)[..]);
    assert_eq!(client.read(9, &mut bytes[..199]), Err(Error::Small));
    client.clear(9).unwrap();
    assert_eq!(client.read(9, &mut bytes), Err(Error::NotFound));
    assert_eq!(client.count(), Ok(2));
}

#[test]
fn a_listing_wants_a_place_for_each() {
    let mut client = attached();
    for id in 1..=4 {
        client.write(&record(id, 150)).unwrap();
    }
    let mut ids = [0; 4];
    assert_eq!(client.list(&mut ids[..3]), Err(Error::ListFull));
    assert_eq!(client.list(&mut ids), Ok(4));
}

#[test]
fn refusals_have_names() {
    assert_eq!(Session::open(&[0; 48]).err(), Some(Error::Table));
    let mut session = Session::open(&table()).unwrap();
    assert_eq!(session.begin(Command::Count), Err(Error::Unattached));
    assert!(matches!(session.next(), Some(Demand::Store { .. })));
    assert_eq!(session.result(), Err(Error::Busy));
    let mut client = attached();
    assert_eq!(client.write(b"none"), Err(Error::Frame));
    assert_eq!(client.count(), Ok(0));
}

#[test]
fn a_command_whose_access_fails_ends() {
    for fails_at in 1.. {
        let mut machine = Machine::new();
        machine.fails_at = Some(fails_at);
        let done = Client::attach(machine, &table()).and_then(|mut client| {
            client.write(&record(1, 300))?;
            client.list(&mut [0; 2])
        });
        match done {
            Ok(listed) => {
                assert_eq!(listed, 1);
                break;
            }
            Err(error) => assert_eq!(error, Error::Fault),
        }
    }
}
