//! The device over a medium in memory: accesses, loss of power in each change, and the checks.

mod guest;

use apei::{
    check, Addresses, CommandStatus, Device, Error, Failure, FaultKind, Geometry, Item, Medium,
    MemoryMedium, Window,
};
use guest::{act, formatted, record, store, Cut, ADDRESSES};

fn identifiers<M: Medium>(device: &mut Device<M>) -> Vec<u64>
where
    M::Error: std::fmt::Debug,
{
    let count = act(device, 0xA).unwrap();
    (0..count).map(|_| act(device, 0x8).unwrap()).collect()
}

#[test]
fn a_record_is_found_by_the_next_opening() {
    let mut device = Device::open(formatted(), ADDRESSES).unwrap();
    assert_eq!(store(&mut device, &record(7, 300)).unwrap(), 0);
    let medium = device.medium().clone();
    drop(device);
    let mut device = Device::open(medium, ADDRESSES).unwrap();
    assert_eq!(identifiers(&mut device), [7]);
}

#[test]
fn a_walk_over_identifiers_goes_round() {
    let mut device = Device::open(formatted(), ADDRESSES).unwrap();
    assert_eq!(act(&mut device, 0x8).unwrap(), u64::MAX);
    for identifier in [3, 1, 2] {
        store(&mut device, &record(identifier, 200)).unwrap();
    }
    let walk: Vec<u64> = (0..7).map(|_| act(&mut device, 0x8).unwrap()).collect();
    assert_eq!(walk, [1, 2, 3, 1, 2, 3, 1]);
}

#[test]
fn power_lost_in_any_change_leaves_the_record_before_or_after() {
    for cut_at in 0.. {
        let mut device = Device::open(Cut::new(formatted(), cut_at), ADDRESSES).unwrap();
        let told = store(&mut device, &record(5, 400)).is_ok();
        let mut device = Device::open(device.medium().medium.clone(), ADDRESSES).unwrap();
        let found = identifiers(&mut device);
        assert!(
            found == [5] || (found.is_empty() && !told),
            "cut at {cut_at}"
        );
        if told {
            break;
        }
    }
}

/// An action of a guest that a hypervisor goes on with, also where the medium failed a change.
fn act_anyway(device: &mut Device<Cut>, action: u32) -> u64 {
    let answer = device.write(Window::Registers, 0, &action.to_le_bytes());
    assert!(matches!(answer, Ok(()) | Err(Failure::Medium(()))));
    let mut value = [0; 8];
    device.read(Window::Registers, 8, &mut value).unwrap();
    u64::from_le_bytes(value)
}

fn store_anyway(device: &mut Device<Cut>, bytes: &[u8]) -> u64 {
    act_anyway(device, 0x0);
    device.write(Window::LogRange, 0, bytes).unwrap();
    act_anyway(device, 0x5);
    while act_anyway(device, 0x6) == 1 {}
    act_anyway(device, 0x7)
}

#[test]
fn a_change_that_the_medium_fails_is_told_as_failed() {
    const FAILED: u64 = 3;
    for cut_at in 0.. {
        let mut device = Device::open(Cut::fails_one(formatted(), cut_at), ADDRESSES).unwrap();
        let told = store_anyway(&mut device, &record(5, 400));
        let found = identifiers(&mut device);
        if told == 0 {
            assert_eq!(found, [5]);
            break;
        }
        assert_eq!(told, FAILED, "cut at {cut_at}");
        assert_eq!(act(&mut device, 0x7).unwrap(), FAILED);
        assert!(found.is_empty() || found == [5], "cut at {cut_at}");
        assert_eq!(store_anyway(&mut device, &record(6, 200)), 0);
        let medium = device.medium().medium.clone();
        let mut device = Device::open(medium, ADDRESSES).unwrap();
        assert_eq!(identifiers(&mut device), [found, vec![6]].concat());
    }
}

#[test]
fn value_has_two_halves() {
    let mut device = Device::open(formatted(), ADDRESSES).unwrap();
    device.write(Window::Registers, 8, &[0xFF; 8]).unwrap();
    device
        .write(Window::Registers, 8, &1u32.to_le_bytes())
        .unwrap();
    device
        .write(Window::Registers, 12, &2u32.to_le_bytes())
        .unwrap();
    let (mut whole, mut high) = ([0; 8], [0; 4]);
    device.read(Window::Registers, 8, &mut whole).unwrap();
    device.read(Window::Registers, 12, &mut high).unwrap();
    assert_eq!(u64::from_le_bytes(whole), 0x2_0000_0001);
    assert_eq!(u32::from_le_bytes(high), 2);
    assert_eq!(
        device.read(Window::Registers, 16, &mut high),
        Err(Error::Access)
    );
    assert_eq!(
        device.read(Window::Registers, 8, &mut [0; 3]),
        Err(Error::Access)
    );
}

#[test]
fn what_is_no_medium_is_refused() {
    let open = |bytes: Vec<u8>| Device::open(MemoryMedium::new(bytes), ADDRESSES).err();
    assert!(matches!(
        open(Vec::new()),
        Some(Failure::Refused(Error::Foreign))
    ));
    assert!(matches!(
        open(vec![0xFF; 4352]),
        Some(Failure::Refused(Error::Foreign))
    ));
    let mut longer = formatted().bytes().to_vec();
    longer.push(0);
    assert!(matches!(open(longer), Some(Failure::Refused(Error::Size))));
    assert_eq!(Geometry::new(300, 2, 8), Err(Error::Geometry));
    let overlapping = Addresses {
        registers: 8,
        log_range: 0,
    };
    let refused = Device::open(formatted(), overlapping).err();
    assert!(matches!(refused, Some(Failure::Refused(Error::Addresses))));
}

#[test]
fn a_saved_device_goes_on_elsewhere() {
    let mut device = Device::open(formatted(), ADDRESSES).unwrap();
    for identifier in [3, 1, 2] {
        store(&mut device, &record(identifier, 200)).unwrap();
    }
    assert_eq!(act(&mut device, 0x8).unwrap(), 1);

    // A read is begun, and its identifier set: the device that goes on executes it.
    act(&mut device, 0x1).unwrap();
    device
        .write(Window::Registers, 8, &2u64.to_le_bytes())
        .unwrap();
    act(&mut device, 0x9).unwrap();
    let (saved, medium) = (device.save().unwrap(), device.medium().clone());
    drop(device);

    let mut device = Device::load(medium.clone(), &saved).unwrap();
    assert_eq!(device.save().unwrap(), saved);
    assert_eq!(device.medium(), &medium);
    act(&mut device, 0x5).unwrap();
    assert_eq!(device.save(), Err(Error::Busy));
    while act(&mut device, 0x6).unwrap() == 1 {}
    assert_eq!(act(&mut device, 0x7).unwrap(), 0);
    let mut found = [0; 200];
    device.read(Window::LogRange, 0, &mut found).unwrap();
    assert_eq!(found[..], record(2, 200));

    // The read moved the cursor to its record.
    assert_eq!(act(&mut device, 0x8).unwrap(), 3);
}

#[test]
fn an_execution_is_ended_for_a_save() {
    let mut device = Device::open(formatted(), ADDRESSES).unwrap();
    act(&mut device, 0x0).unwrap();
    device.write(Window::LogRange, 0, &record(5, 400)).unwrap();
    act(&mut device, 0x5).unwrap();
    assert_eq!(act(&mut device, 0x6).unwrap(), 1);
    assert_eq!(device.save(), Err(Error::Busy));
    device.settle().unwrap();
    let (saved, medium) = (device.save().unwrap(), device.medium().clone());

    // The guest still reads that its execution runs, polls once more, and finds it ended.
    let mut device = Device::load(medium, &saved).unwrap();
    let mut value = [0; 8];
    device.read(Window::Registers, 8, &mut value).unwrap();
    assert_eq!(u64::from_le_bytes(value), 1);
    assert_eq!(act(&mut device, 0x6).unwrap(), 0);
    assert_eq!(act(&mut device, 0x7).unwrap(), 0);
    assert_eq!(identifiers(&mut device), [5]);
}

#[test]
fn what_is_no_saved_device_is_refused() {
    let device = Device::open(formatted(), ADDRESSES).unwrap();
    let saved = device.save().unwrap();
    assert_eq!(saved.len() as u64, 80 + device.log_range_size());
    let load = |bytes: &[u8]| Device::load(formatted(), bytes).err();
    let changed = |at: usize| {
        let mut bytes = saved.clone();
        bytes[at] ^= 0x40;
        load(&bytes)
    };
    assert!(load(&saved).is_none());
    assert!(matches!(
        load(&saved[..79]),
        Some(Failure::Refused(Error::Unsaved))
    ));
    assert!(matches!(
        load(&saved[..saved.len() - 1]),
        Some(Failure::Refused(Error::Unsaved))
    ));
    assert!(matches!(changed(0), Some(Failure::Refused(Error::Unsaved))));
    assert!(matches!(
        changed(8),
        Some(Failure::Refused(Error::SavedVersion))
    ));
    assert!(matches!(
        changed(20),
        Some(Failure::Refused(Error::SavedFlash))
    ));
    assert!(matches!(
        changed(24),
        Some(Failure::Refused(Error::Unsaved))
    ));
    assert!(matches!(
        changed(28),
        Some(Failure::Refused(Error::Unsaved))
    ));
}

#[test]
fn the_table_is_one() {
    let mut device = Device::open(formatted(), ADDRESSES).unwrap();
    let table = device.table();
    let parts = check(Item::Erst, &table).unwrap();
    assert!(parts.len() > 16);
    assert!(parts.clone().all(|part| part.header.len() == 32));
    assert_eq!(parts.len(), parts.count());
    assert!(check(Item::Hest, &table).is_err());
    device
        .move_to(Addresses {
            registers: 0x1000,
            log_range: 0x10_0000,
        })
        .unwrap();
    assert_ne!(device.table(), table);
    assert!(check(Item::Erst, &device.table()).is_ok());
}

#[test]
fn a_record_shows_its_parts() {
    let bytes = record(9, 128);
    assert_eq!(check(Item::Record, &bytes).unwrap().count(), 0);
    let fault = check(Item::Record, &bytes[..100]).unwrap_err();
    assert_eq!((fault.kind, fault.offset), (FaultKind::RecordShort, 100));
    assert_eq!(
        fault.to_string(),
        "bytes of the record are missing (byte 100)"
    );
    assert!(check(Item::Block, &[0; 19]).is_err());
}

#[test]
fn a_device_may_go_to_another_thread() {
    let mut device = Device::open(formatted(), ADDRESSES).unwrap();
    let count = std::thread::spawn(move || act(&mut device, 0xA).unwrap())
        .join()
        .unwrap();
    assert_eq!(count, 0);
}

#[test]
fn a_medium_is_lent_and_given_back() {
    let mut medium = formatted();
    let mut device = Device::open(&mut medium, ADDRESSES).unwrap();
    let told = store(&mut device, &record(7, 300)).unwrap();
    assert_eq!(
        CommandStatus::from_value(told),
        Some(CommandStatus::Success)
    );
    drop(device);
    let mut device = Device::open(medium, ADDRESSES).unwrap();
    assert_eq!(identifiers(&mut device), [7]);
    let mut device = Device::open(device.into_medium(), ADDRESSES).unwrap();
    assert_eq!(identifiers(&mut device), [7]);
}

#[test]
fn a_device_says_its_geometry() {
    let geometry = Geometry::new(256, 2, 8).unwrap();
    let device = Device::open(formatted(), ADDRESSES).unwrap();
    assert_eq!(device.geometry(), geometry);
    let saved = device.save().unwrap();
    let medium = device.into_medium();
    let flash = MemoryMedium::new(medium.bytes()[256..].to_vec());
    let loaded = Device::load(medium, &saved).unwrap();
    assert_eq!(loaded.geometry(), geometry);
    let raw = Device::open_raw(flash, geometry, ADDRESSES).unwrap();
    let found = raw.geometry();
    assert_eq!(
        (found.sector(), found.sectors_per_slot(), found.slots()),
        (256, 2, 8)
    );
    assert_eq!(
        format!("{raw:?}"),
        "Device { geometry: Geometry { sector: 256, sectors_per_slot: 2, slots: 8 }, medium: MemoryMedium { size: 4096 }, .. }"
    );
}

#[test]
fn a_status_has_words() {
    let words: Vec<String> = (0..7)
        .filter_map(CommandStatus::from_value)
        .map(|it| it.to_string())
        .collect();
    assert_eq!(
        words,
        [
            "success",
            "not enough space",
            "hardware not available",
            "failed",
            "record store empty",
            "record not found"
        ]
    );
}

#[cfg(feature = "std")]
#[test]
fn a_file_has_one_medium() {
    use apei::FileMedium;
    use std::fs::File;

    let path = std::env::temp_dir().join(format!("apei-medium-{}", std::process::id()));
    std::fs::write(&path, formatted().bytes()).unwrap();
    let open = || FileMedium::new(File::options().read(true).write(true).open(&path)?);
    let mut device = Device::open(open().unwrap(), ADDRESSES).unwrap();
    assert_eq!(open().unwrap_err().kind(), std::io::ErrorKind::WouldBlock);
    assert_eq!(store(&mut device, &record(7, 300)).unwrap(), 0);
    drop(device);
    let mut device = Device::open(open().unwrap(), ADDRESSES).unwrap();
    assert_eq!(identifiers(&mut device), [7]);
    std::fs::remove_file(&path).unwrap();
}
