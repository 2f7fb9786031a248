//! Where the archive takes its memory in a program without the C library: Rust's global allocator. A block begins with its layout, which
//! the allocator wants back.
use alloc::alloc::{alloc, dealloc, Layout};
use core::ffi::c_void;
use core::ptr;

/// What stands before a block's bytes.
#[repr(C, align(16))]
struct Head {
    layout: Layout,
}

const HEAD: usize = size_of::<Head>();

/// What a call for memory answers: whether there was any, and where it stands. The place is never null.
#[repr(C)]
pub struct Answer {
    is_there: bool,
    at: *mut c_void,
}

static NOWHERE: u8 = 0;

fn none() -> Answer {
    Answer {
        is_there: false,
        at: ptr::addr_of!(NOWHERE).cast_mut().cast(),
    }
}

fn layout(size: usize) -> Option<Layout> {
    Layout::from_size_align(size.checked_add(HEAD)?, align_of::<Head>()).ok()
}

/// # Safety
/// `at` was given by `rattle_alloc`, and is held.
unsafe fn head(at: *mut c_void) -> *mut Head {
    at.cast::<u8>().sub(HEAD).cast()
}

#[no_mangle]
extern "C" fn rattle_alloc(size: usize, alignment: usize) -> Answer {
    let Some(layout) = layout(size).filter(|_| alignment <= align_of::<Head>()) else {
        return none();
    };
    // SAFETY: the layout has the head's bytes at least, and the head is written where they stand.
    unsafe {
        let start = alloc(layout);
        if start.is_null() {
            return none();
        }
        start.cast::<Head>().write(Head { layout });
        Answer {
            is_there: true,
            at: start.add(HEAD).cast(),
        }
    }
}

#[no_mangle]
unsafe extern "C" fn rattle_realloc(
    old: *mut c_void,
    kept: usize,
    size: usize,
    alignment: usize,
) -> Answer {
    let answer = rattle_alloc(size, alignment);
    if answer.is_there {
        ptr::copy_nonoverlapping(old.cast::<u8>(), answer.at.cast::<u8>(), kept.min(size));
        rattle_dealloc(old);
    }
    answer
}

#[no_mangle]
unsafe extern "C" fn rattle_dealloc(old: *mut c_void) {
    let start = head(old);
    let layout = (*start).layout;
    dealloc(start.cast(), layout);
}
