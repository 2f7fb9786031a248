//! A device that is dropped gives its memory back. The archive's three functions for memory stand here, in place of the library's own,
//! and count the blocks that it holds.

mod guest;

use apei::{Addresses, Device, Failure, MemoryMedium};
use guest::{formatted, record, store, Cut, ADDRESSES};
use std::ffi::c_void;
use std::sync::atomic::{AtomicIsize, Ordering::SeqCst};

static HELD: AtomicIsize = AtomicIsize::new(0);

#[repr(C)]
pub struct Answer {
    is_there: bool,
    at: *mut c_void,
}

extern "C" {
    fn malloc(size: usize) -> *mut c_void;
    fn realloc(at: *mut c_void, size: usize) -> *mut c_void;
    fn free(at: *mut c_void);
}

#[no_mangle]
pub extern "C" fn rattle_alloc(size: usize, _alignment: usize) -> Answer {
    HELD.fetch_add(1, SeqCst);
    // SAFETY: any size may be asked for.
    let at = unsafe { malloc(size) };
    Answer { is_there: true, at }
}

/// # Safety
/// The archive gives a block that it holds.
#[no_mangle]
pub unsafe extern "C" fn rattle_realloc(
    old: *mut c_void,
    _kept: usize,
    size: usize,
    _alignment: usize,
) -> Answer {
    let at = realloc(old, size);
    Answer { is_there: true, at }
}

/// # Safety
/// The archive gives a block that it holds.
#[no_mangle]
pub unsafe extern "C" fn rattle_dealloc(old: *mut c_void) {
    HELD.fetch_sub(1, SeqCst);
    free(old);
}

fn held() -> isize {
    HELD.load(SeqCst)
}

/// A write of a record over another one, with power lost in one change of it: what stands on the medium.
fn cut_replacement(cut_at: usize) -> (MemoryMedium, bool) {
    let mut device = Device::open(Cut::new(formatted(), cut_at), ADDRESSES).unwrap();
    let is_whole = (1..3).all(|_| store(&mut device, &record(5, 400)).is_ok());
    assert_eq!(held(), 12);
    (device.medium().medium.clone(), is_whole)
}

// One test, since the count is that of the process.
#[test]
fn a_device_gives_its_memory_back() {
    for cut_at in 0.. {
        let (medium, is_whole) = cut_replacement(cut_at);
        assert_eq!(held(), 0, "cut at {cut_at}");

        // An opening whose own change the medium fails.
        let opened = Device::open(Cut::new(medium, 0), ADDRESSES);
        let is_failed = matches!(opened, Err(Failure::Medium(())));
        assert_eq!(held(), if is_failed { 0 } else { 12 }, "cut at {cut_at}");
        drop(opened);
        assert_eq!(held(), 0, "cut at {cut_at}");
        if is_whole {
            break;
        }
    }
    let overlapping = Addresses {
        registers: 8,
        log_range: 0,
    };
    assert!(Device::open(formatted(), overlapping).is_err());
    assert!(Device::load(formatted(), &[0; 80]).is_err());
    assert_eq!(held(), 0);
}
