//! A hypervisor with an error record device on two windows of its guest's memory. The guest finds the device by its table
//! alone: it runs the table's instruction entries, as an operating system does, writes a record, and finds it again once the
//! hypervisor has been started anew. Then the guest moves to another hypervisor in the middle of its work, and goes on there.
//!
//!     cargo run --example vmm

use apei::{
    check, format, Addresses, Device, FileMedium, Geometry, Item, Medium, Window, REGISTERS_SIZE,
};
use std::error::Error;
use std::fs::File;
use std::path::Path;

const ADDRESSES: Addresses = Addresses {
    registers: 0xFED4_0000,
    log_range: 0xFED5_0000,
};

/// The guest's memory, as far as the device goes.
struct Bus<M: Medium> {
    device: Device<M>,
    log_range_size: u64,
}

impl<M> Bus<M>
where
    M: Medium,
    M::Error: Error + 'static,
{
    fn new(device: Device<M>) -> Self {
        let log_range_size = device.log_range_size();
        Bus {
            device,
            log_range_size,
        }
    }

    /// The window in which an address lies, and the offset there.
    fn decode(&self, address: u64) -> Option<(Window, u64)> {
        let windows = [
            (Window::Registers, ADDRESSES.registers, REGISTERS_SIZE),
            (Window::LogRange, ADDRESSES.log_range, self.log_range_size),
        ];
        windows
            .into_iter()
            .map(|(window, base, size)| (window, address.wrapping_sub(base), size))
            .find(|(_, offset, size)| offset < size)
            .map(|(window, offset, _)| (window, offset))
    }

    fn read(&mut self, address: u64, bytes: &mut [u8]) -> Result<(), Box<dyn Error>> {
        let (window, offset) = self.decode(address).ok_or("an address without a device")?;
        Ok(self.device.read(window, offset, bytes)?)
    }

    fn write(&mut self, address: u64, bytes: &[u8]) -> Result<(), Box<dyn Error>> {
        let (window, offset) = self.decode(address).ok_or("an address without a device")?;
        Ok(self.device.write(window, offset, bytes)?)
    }
}

/// An instruction entry of the table (ACPI 6.4, section 18.5.1.2).
#[derive(Clone, Copy)]
struct Entry {
    action: u8,
    instruction: u8,
    size: usize,
    address: u64,
    value: u64,
    mask: u64,
}

impl Entry {
    fn parse(bytes: &[u8]) -> Self {
        let number = |at: usize| u64::from_le_bytes(bytes[at..at + 8].try_into().unwrap());
        Entry {
            action: bytes[0],
            instruction: bytes[1],
            size: usize::from(bytes[5]) / 8,
            address: number(8),
            value: number(16),
            mask: number(24),
        }
    }
}

/// The guest: its table, and the actions that it runs.
struct Guest<'a, M: Medium> {
    bus: &'a mut Bus<M>,
    entries: Vec<Entry>,
}

impl<'a, M> Guest<'a, M>
where
    M: Medium,
    M::Error: Error + 'static,
{
    fn new(bus: &'a mut Bus<M>) -> Result<Self, Box<dyn Error>> {
        let table = bus.device.table();
        let entries = check(Item::Erst, &table)?
            .map(|part| Entry::parse(part.header))
            .collect();
        Ok(Guest { bus, entries })
    }

    fn register(&mut self, entry: &Entry) -> Result<u64, Box<dyn Error>> {
        let mut bytes = [0; 8];
        self.bus.read(entry.address, &mut bytes[..entry.size])?;
        Ok(u64::from_le_bytes(bytes) & entry.mask)
    }

    /// Runs an action: each of its entries reads or writes a register.
    fn run(&mut self, action: u8, given: u64) -> Result<u64, Box<dyn Error>> {
        let program: Vec<Entry> = self
            .entries
            .iter()
            .filter(|it| it.action == action)
            .copied()
            .collect();
        let mut answer = 0;
        for entry in &program {
            match entry.instruction {
                0 => answer = self.register(entry)?,
                1 => answer = u64::from(self.register(entry)? == entry.value),
                2 => self.bus.write(
                    entry.address,
                    &(given & entry.mask).to_le_bytes()[..entry.size],
                )?,
                3 => self.bus.write(
                    entry.address,
                    &(entry.value & entry.mask).to_le_bytes()[..entry.size],
                )?,
                other => return Err(format!("instruction {other}").into()),
            }
        }
        Ok(answer)
    }

    /// Executes the operation that was begun, to its status.
    fn execute(&mut self) -> Result<u64, Box<dyn Error>> {
        self.run(0x5, 0)?;
        while self.run(0x6, 0)? == 1 {}
        let status = self.run(0x7, 0)?;
        self.run(0x3, 0)?;
        Ok(status)
    }

    /// Begins a write: the record stands in the log range then.
    fn begin_write(&mut self, record: &[u8]) -> Result<(), Box<dyn Error>> {
        self.run(0x0, 0)?;
        let range = self.run(0xD, 0)?;
        self.bus.write(range, record)?;
        self.run(0x4, 0)?;
        Ok(())
    }

    fn write(&mut self, record: &[u8]) -> Result<u64, Box<dyn Error>> {
        self.begin_write(record)?;
        self.execute()
    }

    /// The record of an identifier.
    fn read(&mut self, identifier: u64) -> Result<Vec<u8>, Box<dyn Error>> {
        self.run(0x1, 0)?;
        self.run(0x9, identifier)?;
        if self.execute()? != 0 {
            return Err("the record is not there".into());
        }
        let range = self.run(0xD, 0)?;
        let mut length = [0; 4];
        self.bus.read(range + 20, &mut length)?;
        let mut record = vec![0; u32::from_le_bytes(length) as usize];
        self.bus.read(range, &mut record)?;
        Ok(record)
    }
}

/// An error record without sections (UEFI 2.8, appendix N.2.1).
fn record(identifier: u64, length: u32) -> Vec<u8> {
    let mut record = vec![0; length as usize];
    record[..10].copy_from_slice(b"CPER\x01\x01\xFF\xFF\xFF\xFF");
    record[20..24].copy_from_slice(&length.to_le_bytes());
    record[96..104].copy_from_slice(&identifier.to_le_bytes());
    record
}

fn open_file(path: &Path) -> std::io::Result<FileMedium> {
    FileMedium::new(File::options().read(true).write(true).open(path)?)
}

fn main() -> Result<(), Box<dyn Error>> {
    let path = std::env::temp_dir().join(format!("apei-vmm-{}", std::process::id()));
    let file = File::options()
        .read(true)
        .write(true)
        .create(true)
        .truncate(true)
        .open(&path)?;
    format(&mut FileMedium::new(file)?, Geometry::new(4096, 2, 16)?)?;

    let written = record(0x1234_5678, 400);
    {
        let mut bus = Bus::new(Device::open(open_file(&path)?, ADDRESSES)?);
        let status = Guest::new(&mut bus)?.write(&written)?;
        println!("wrote 12345678, status {status}");
    }
    let mut bus = Bus::new(Device::open(open_file(&path)?, ADDRESSES)?);
    let mut guest = Guest::new(&mut bus)?;
    println!("records {}", guest.run(0xA, 0)?);
    let identifier = guest.run(0x8, 0)?;
    let found = guest.read(identifier)?;
    println!(
        "read {identifier:x}, {} bytes, as written: {}",
        found.len(),
        found == written
    );

    let moved = record(0x9ABC_DEF0, 600);
    guest.begin_write(&moved)?;
    let saved = bus.device.save()?;
    drop(bus);
    let mut bus = Bus::new(Device::load(open_file(&path)?, &saved)?);
    let mut guest = Guest::new(&mut bus)?;
    let status = guest.execute()?;
    println!(
        "moved by {} bytes, wrote 9abcdef0, status {status}",
        saved.len()
    );
    let found = guest.read(0x9ABC_DEF0)?;
    println!(
        "read 9abcdef0, {} bytes, as written: {}",
        found.len(),
        found == moved
    );
    std::fs::remove_file(&path)?;
    Ok(())
}
