//! A hypervisor that tells its guest of hardware errors, and a guest that runs in a thread of its own and reads them as an operating
//! system does: one source without an acknowledge register, and one with it. Both find a block's place by the table's register alone.
//!
//!     cargo run --example sources

use apei::{
    check, Acknowledge, Guest, Item, MappedMemory, Notification, Place, Register, Source, Sources,
    Stop,
};
use std::error::Error;
use std::fmt;
use std::sync::atomic::{AtomicU32, Ordering};
use std::thread;

/// The part of the guest's memory that the hypervisor keeps for its sources: here it begins, and so many bytes it has.
const START: u64 = 0xF000_0000;
const SIZE: usize = 0x1000;
const BLOCKS: u32 = 100;

/// Where a source lies: the register of its block's address, the acknowledge register, and the block.
#[derive(Clone, Copy)]
struct Layout {
    address: u64,
    acknowledge: Option<u64>,
    block: u64,
}

const LAYOUTS: [Layout; 2] = [
    Layout {
        address: START,
        acknowledge: None,
        block: START + 0x100,
    },
    Layout {
        address: START + 8,
        acknowledge: Some(START + 16),
        block: START + 0x200,
    },
];

impl Layout {
    fn source(&self, id: u16) -> Source {
        Source {
            id,
            notification: Notification {
                kind: 3,
                ..Notification::default()
            },
            address: Register::at(self.address),
            block: self.block,
            length: 256,
            places: 8,
            acknowledge: self.acknowledge.map(|address| Acknowledge {
                register: Register::at(address),
                preserve: !1,
                write: 1,
            }),
        }
    }
}

/// Nothing of the guest stands there, or no access of that size is made there.
#[derive(Debug)]
struct NotMapped(Place);

impl fmt::Display for NotMapped {
    fn fmt(&self, f: &mut fmt::Formatter<'_>) -> fmt::Result {
        write!(f, "{:?} is not mapped", self.0)
    }
}

impl Error for NotMapped {}

/// The guest as the hypervisor reaches it: its memory, and its interrupts, which are counted here.
struct Machine {
    memory: MappedMemory,
    interrupts: AtomicU32,
}

impl Guest for Machine {
    type Error = NotMapped;

    fn read(&mut self, place: Place, size: u32) -> Result<u64, NotMapped> {
        let found = match place {
            Place::Memory(address) => self.memory.read(address, size),
            Place::Io(_) => None,
        };
        found.ok_or(NotMapped(place))
    }

    fn write(&mut self, place: Place, bytes: &[u8]) -> Result<(), NotMapped> {
        let found = match place {
            Place::Memory(address) => self.memory.write(address, bytes),
            Place::Io(_) => None,
        };
        found.ok_or(NotMapped(place))
    }

    fn notify(&mut self, _source: u32) -> Result<(), NotMapped> {
        self.interrupts.fetch_add(1, Ordering::Release);
        Ok(())
    }
}

/// An error status block (ACPI 6.4, section 18.3.2.7.1) with one entry, whose section of 4 bytes is a number.
fn block(number: u32) -> [u8; 96] {
    let mut block = [0; 96];
    block[0..4].copy_from_slice(&0x12_u32.to_le_bytes());
    block[12..16].copy_from_slice(&76_u32.to_le_bytes());
    block[16..20].copy_from_slice(&2_u32.to_le_bytes());
    block[40..42].copy_from_slice(&0x300_u16.to_le_bytes());
    block[44..48].copy_from_slice(&4_u32.to_le_bytes());
    block[92..96].copy_from_slice(&number.to_le_bytes());
    block
}

/// Takes a block from memory, once there is one.
fn take(memory: &MappedMemory, layout: &Layout) -> Option<u32> {
    let at = memory.read(layout.address, 8)?;
    while memory.read(at, 4)? == 0 {
        thread::yield_now();
    }
    let number = memory.read(at + 92, 4)?;
    memory.write(at, &0_u32.to_le_bytes())?;
    if let Some(register) = layout.acknowledge {
        let kept = memory.read(register, 8)? & !1;
        memory.write(register, &(kept | 1).to_le_bytes())?;
    }
    Some(number as u32)
}

/// Serves a source until the guest took all its blocks.
fn serve(sources: &mut Sources<Machine>, source: u32) -> Result<(), Box<dyn Error>> {
    for number in 0..BLOCKS {
        while sources.submit(source, &block(number)).is_err() {
            sources.serve(source)?;
            thread::yield_now();
        }
    }
    while sources.serve(source)? == Stop::Waits {
        thread::yield_now();
    }
    Ok(())
}

fn main() -> Result<(), Box<dyn Error>> {
    let bytes: &'static mut [u64] = vec![0xA5A5_A5A5_A5A5_A5A5; SIZE / 8].leak();
    let start = bytes.as_mut_ptr() as usize;
    // SAFETY: the bytes stay, and are reached by such a memory alone.
    let map = move || unsafe { MappedMemory::new(start as *mut u8, SIZE as u64, START) };
    let machine = Machine {
        memory: map().ok_or("the memory is not aligned")?,
        interrupts: AtomicU32::new(0),
    };
    let wanted = [LAYOUTS[0].source(1), LAYOUTS[1].source(2)];
    let mut sources = Sources::open(machine, &wanted)?;
    let table = sources.table();
    println!(
        "sources in the table: {}",
        check(Item::Hest, &table)?.count()
    );
    for (source, layout) in (0..).zip(LAYOUTS) {
        sources.serve(source)?;
        let guest = thread::spawn(move || {
            let memory = map()?;
            (0..BLOCKS)
                .map(|_| take(&memory, &layout))
                .collect::<Option<Vec<u32>>>()
        });
        serve(&mut sources, source)?;
        let taken = guest.join().map_err(|_| "the guest stopped")?;
        println!(
            "source {source}: {BLOCKS} blocks as submitted: {}",
            taken == Some((0..BLOCKS).collect())
        );
    }
    let told = sources.guest().interrupts.load(Ordering::Acquire);
    println!("notifications: {told}");
    Ok(())
}
