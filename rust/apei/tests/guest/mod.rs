//! A guest that writes records, and mediums for its device.

use apei::{format, Addresses, Device, Failure, Geometry, Medium, MemoryMedium, Window};

pub const ADDRESSES: Addresses = Addresses {
    registers: 0xFED4_0000,
    log_range: 0xFED5_0000,
};

fn geometry() -> Geometry {
    Geometry::new(256, 2, 8).unwrap()
}

pub fn formatted() -> MemoryMedium {
    let mut medium = MemoryMedium::default();
    format(&mut medium, geometry()).unwrap();
    medium
}

pub fn act<M: Medium>(device: &mut Device<M>, action: u32) -> Result<u64, Failure<M::Error>> {
    device.write(Window::Registers, 0, &action.to_le_bytes())?;
    let mut value = [0; 8];
    device.read(Window::Registers, 8, &mut value)?;
    Ok(u64::from_le_bytes(value))
}

pub fn record(identifier: u64, length: u32) -> Vec<u8> {
    let mut record = vec![identifier as u8; length as usize];
    record[..128].fill(0);
    record[..10].copy_from_slice(b"CPER\x01\x01\xFF\xFF\xFF\xFF");
    record[20..24].copy_from_slice(&length.to_le_bytes());
    record[96..104].copy_from_slice(&identifier.to_le_bytes());
    record
}

pub fn store<M: Medium>(device: &mut Device<M>, bytes: &[u8]) -> Result<u64, Failure<M::Error>> {
    act(device, 0x0)?;
    device.write(Window::LogRange, 0, bytes)?;
    act(device, 0x5)?;
    while act(device, 0x6)? == 1 {}
    let status = act(device, 0x7)?;
    act(device, 0x3)?;
    Ok(status)
}

/// A medium in memory whose power is lost in one change, or that fails one change alone.
pub struct Cut {
    pub medium: MemoryMedium,
    changes: usize,
    cut_at: usize,
    goes_on: bool,
}

impl Cut {
    pub fn new(medium: MemoryMedium, cut_at: usize) -> Self {
        Cut {
            medium,
            changes: 0,
            cut_at,
            goes_on: false,
        }
    }

    /// The same, but the change fails, and those behind it do not.
    #[allow(dead_code)]
    pub fn fails_one(medium: MemoryMedium, cut_at: usize) -> Self {
        Cut {
            goes_on: true,
            ..Cut::new(medium, cut_at)
        }
    }

    fn count(&mut self) -> Result<(), ()> {
        self.changes += 1;
        let is_cut = if self.goes_on {
            self.changes == self.cut_at + 1
        } else {
            self.changes > self.cut_at
        };
        if is_cut {
            Err(())
        } else {
            Ok(())
        }
    }
}

impl Medium for Cut {
    type Error = ();

    fn contents(&mut self) -> Result<Vec<u8>, ()> {
        Ok(self.medium.bytes().to_vec())
    }

    fn program(&mut self, offset: u64, bytes: &[u8]) -> Result<(), ()> {
        self.count()?;
        self.medium
            .program(offset, bytes)
            .map_err(|never| match never {})
    }

    fn erase(&mut self, offset: u64, length: u32) -> Result<(), ()> {
        self.count()?;
        self.medium
            .erase(offset, length)
            .map_err(|never| match never {})
    }
}
