//! An ACPI error record device (ERST, ACPI 6.4, section 18.5), error sources (section 18.3.2) and a boot error region (section 18.3.1)
//! for hypervisors and firmware.
//!
//! Of the device: whenever power is lost, also
//! within a change of its medium, opening the medium gives the records after the first so many writes and clears that were
//! carried out, with each one whose status the guest was told. That, and what each access does, is proved; this crate is a thin
//! cover over the proved archive `libapei.a`.
//!
//! A [`Device`] keeps its records on a [`Medium`], which [`format()`] makes. The guest reaches it by two [`Window`]s, whose
//! addresses its table tells. [`check()`] says whether bytes are a well-formed table, record or block.
//! [`make_block()`] and [`make_record()`] make a block and a record around a section.
//!
//! [`Sources`] put error status blocks into the memory of a [`Guest`], each whole, once and in order. A [`BootRegion`] keeps those of
//! fatal errors for the next operating system.
//!
//! A [`Client`] is the operating system's side, over the [`Registers`] that a firmware's table names; a [`Session`] is the same without a loop.
//!
//! Without its feature `std` the crate wants `alloc` alone: the archive is then the one without `malloc`, and takes its memory from
//! the program's global allocator.
#![no_std]
#![warn(missing_docs)]

extern crate alloc;
#[cfg(feature = "std")]
extern crate std;

mod boot;
mod check;
mod client;
mod device;
mod error;
#[cfg(feature = "std")]
mod file_medium;
mod geometry;
mod guest;
#[cfg(not(feature = "std"))]
mod heap;
mod make;
mod medium;
mod raw;
mod session;
mod sized;
mod sources;
mod status;

pub use boot::{boot_table, BootRegion};
pub use check::{check, Fault, FaultKind, Item, Part, Parts};
pub use client::{Client, Registers};
pub use device::{Addresses, Device, Window, REGISTERS_SIZE};
pub use error::{Error, Failure};
#[cfg(feature = "std")]
pub use file_medium::FileMedium;
pub use geometry::{format, Geometry};
pub use guest::{Guest, MappedMemory, Place};
pub use make::{make_block, make_record, BlockFields, RecordFields, Severity};
pub use medium::{Medium, MemoryMedium};
pub use session::{Command, Demand, Range, Session};
pub use sources::{
    Acknowledge, Notification, Refused, Register, Source, Sources, Stop, Unacknowledged,
};
pub use status::CommandStatus;
