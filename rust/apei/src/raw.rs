//! The archive's own calls, as `include/apei.h` declares them.

#[repr(C)]
#[derive(Clone, Copy)]
pub struct Geometry {
    pub sector: u32,
    pub sectors_per_slot: u32,
    pub slots: u32,
}

#[repr(C)]
#[derive(Clone, Copy, Default)]
pub struct Change {
    pub offset: u64,
    pub length: u32,
    pub kind: u32,
}

#[repr(C)]
pub struct Erst {
    device: *mut core::ffi::c_void,
    is_open: u8,
}

impl Erst {
    pub const fn closed() -> Self {
        Erst {
            device: core::ptr::null_mut(),
            is_open: 0,
        }
    }
}

#[repr(C)]
#[derive(Clone, Copy)]
pub struct Addresses {
    pub registers: u64,
    pub range: u64,
}

#[repr(C)]
#[derive(Clone, Copy, Default)]
pub struct Fault {
    pub offset: u64,
    pub kind: u32,
    pub reserved: u32,
}

#[repr(C)]
#[derive(Clone, Copy, Default)]
pub struct Part {
    pub offset: u64,
    pub length: u64,
    pub body: u64,
    pub body_length: u64,
    pub kind: u32,
    pub reserved: u32,
}

#[repr(C)]
pub struct Ghes {
    sources: *mut core::ffi::c_void,
    is_open: u8,
}

impl Ghes {
    pub const fn closed() -> Self {
        Ghes {
            sources: core::ptr::null_mut(),
            is_open: 0,
        }
    }
}

#[repr(C)]
pub struct Boot {
    region: *mut core::ffi::c_void,
    is_open: u8,
}

impl Boot {
    pub const fn closed() -> Self {
        Boot {
            region: core::ptr::null_mut(),
            is_open: 0,
        }
    }
}

#[repr(C)]
pub struct Client {
    session: *mut core::ffi::c_void,
    is_open: u8,
}

impl Client {
    pub const fn closed() -> Self {
        Client {
            session: core::ptr::null_mut(),
            is_open: 0,
        }
    }
}

#[repr(C)]
#[derive(Clone, Copy, Default)]
pub struct Range {
    pub address: u64,
    pub length: u64,
    pub greatest: u32,
    pub nominal: u32,
}

#[repr(C)]
#[derive(Clone, Copy, Default)]
pub struct Demand {
    pub address: u64,
    pub value: u64,
    pub length: u64,
    pub kind: u32,
    pub space: u32,
}

#[repr(C)]
#[derive(Clone, Copy, Default)]
pub struct Register {
    pub space: u8,
    pub width: u8,
    pub offset: u8,
    pub access: u8,
    pub reserved: u32,
    pub address: u64,
}

#[repr(C)]
#[derive(Clone, Copy)]
pub struct Source {
    pub kind: u16,
    pub id: u16,
    pub related: u16,
    pub flags: u8,
    pub enabled: u8,
    pub records: u32,
    pub sections: u32,
    pub raw: u32,
    pub length: u32,
    pub notification: [u8; 28],
    pub places: u32,
    pub address: Register,
    pub block: u64,
    pub ack: Register,
    pub preserve: u64,
    pub write: u64,
}

#[repr(C)]
#[derive(Clone, Copy, Default)]
pub struct Access {
    pub address: u64,
    pub length: u32,
    pub kind: u32,
    pub space: u32,
    pub reserved: u32,
}

#[repr(C)]
#[derive(Clone, Copy)]
pub struct BlockFields {
    pub timestamp: u64,
    pub severity: u32,
    pub flags: u8,
    pub has_timestamp: u8,
    pub has_fru: u8,
    pub has_fru_text: u8,
    pub kind: [u8; 16],
    pub fru: [u8; 16],
    pub fru_text: [u8; 20],
    pub reserved: u32,
}

#[repr(C)]
#[derive(Clone, Copy)]
pub struct RecordFields {
    pub id: u64,
    pub timestamp: u64,
    pub severity: u32,
    pub flags: u32,
    pub section_flags: u32,
    pub has_timestamp: u8,
    pub has_fru: u8,
    pub has_fru_text: u8,
    pub reserved: u8,
    pub creator: [u8; 16],
    pub notification: [u8; 16],
    pub kind: [u8; 16],
    pub fru: [u8; 16],
    pub fru_text: [u8; 20],
    pub unused: u32,
}

pub const READ: u32 = 0;
pub const WRITE: u32 = 1;
pub const ACCESS_MAX: usize = 64;
pub const BERT_SIZE: usize = 48;

pub const PROGRAM: u32 = 0;
pub const PROGRAM_MAX: usize = 256;

extern "C" {
    pub fn apei_c_medium_size(geometry: &Geometry, size: &mut u64) -> u32;
    pub fn apei_c_memory_size(geometry: &Geometry, bytes: &mut u64) -> u32;
    pub fn apei_c_format_change(
        geometry: &Geometry,
        step: u64,
        change: &mut Change,
        bytes: *mut u8,
        room: usize,
    ) -> u32;
    pub fn apei_c_erst_open(
        erst: *mut Erst,
        medium: *const u8,
        size: usize,
        addresses: &Addresses,
    ) -> u32;
    pub fn apei_c_erst_open_raw(
        erst: *mut Erst,
        flash: *const u8,
        size: usize,
        geometry: &Geometry,
        addresses: &Addresses,
    ) -> u32;
    pub fn apei_c_erst_close(erst: *mut Erst) -> u32;
    pub fn apei_c_erst_read(
        erst: *mut Erst,
        window: u32,
        offset: u64,
        size: u32,
        value: &mut u64,
    ) -> u32;
    pub fn apei_c_erst_write(
        erst: *mut Erst,
        window: u32,
        offset: u64,
        size: u32,
        value: u64,
    ) -> u32;
    pub fn apei_c_erst_get(erst: *mut Erst, offset: u64, bytes: *mut u8, size: usize) -> u32;
    pub fn apei_c_erst_put(erst: *mut Erst, offset: u64, bytes: *const u8, size: usize) -> u32;
    pub fn apei_c_erst_change(
        erst: *mut Erst,
        change: &mut Change,
        bytes: *mut u8,
        room: usize,
    ) -> u32;
    pub fn apei_c_erst_done(erst: *mut Erst) -> u32;
    pub fn apei_c_erst_failed(erst: *mut Erst, medium: *const u8, size: usize) -> u32;
    pub fn apei_c_erst_reset(erst: *mut Erst) -> u32;
    pub fn apei_c_erst_settle(erst: *mut Erst) -> u32;
    pub fn apei_c_erst_move(erst: *mut Erst, addresses: &Addresses) -> u32;
    pub fn apei_c_erst_table(erst: *mut Erst, table: *mut u8, room: usize, size: &mut u64) -> u32;
    pub fn apei_c_erst_save(erst: *mut Erst, bytes: *mut u8, room: usize, size: &mut u64) -> u32;
    pub fn apei_c_erst_load(
        erst: *mut Erst,
        medium: *const u8,
        size: usize,
        saved: *const u8,
        saved_size: usize,
    ) -> u32;
    pub fn apei_c_erst_load_raw(
        erst: *mut Erst,
        flash: *const u8,
        size: usize,
        geometry: &Geometry,
        saved: *const u8,
        saved_size: usize,
    ) -> u32;
    pub fn apei_c_erst_range_size(erst: *mut Erst, size: &mut u64) -> u32;
    pub fn apei_c_check(
        item: u32,
        bytes: *const u8,
        size: usize,
        parts: &mut u32,
        fault: &mut Fault,
    ) -> u32;
    pub fn apei_c_part_at(
        item: u32,
        bytes: *const u8,
        size: usize,
        index: u32,
        part: &mut Part,
    ) -> u32;
    pub fn apei_c_ghes_open(
        ghes: *mut Ghes,
        sources: *const Source,
        count: usize,
        refused: &mut u64,
    ) -> u32;
    pub fn apei_c_ghes_close(ghes: *mut Ghes) -> u32;
    pub fn apei_c_ghes_table(ghes: *mut Ghes, table: *mut u8, room: usize, size: &mut u64) -> u32;
    pub fn apei_c_ghes_submit(ghes: *mut Ghes, source: u32, block: *const u8, size: usize) -> u32;
    pub fn apei_c_ghes_access(
        ghes: *mut Ghes,
        source: u32,
        access: &mut Access,
        bytes: *mut u8,
        room: usize,
    ) -> u32;
    pub fn apei_c_ghes_done(ghes: *mut Ghes, source: u32, value: u64) -> u32;
    pub fn apei_c_ghes_reset(ghes: *mut Ghes, source: u32, blocks: u32) -> u32;
    pub fn apei_c_boot_open(boot: *mut Boot, address: u64, length: u32) -> u32;
    pub fn apei_c_boot_close(boot: *mut Boot) -> u32;
    pub fn apei_c_boot_lay(boot: *mut Boot, block: *const u8, size: usize) -> u32;
    pub fn apei_c_boot_access(
        boot: *mut Boot,
        access: &mut Access,
        bytes: *mut u8,
        room: usize,
    ) -> u32;
    pub fn apei_c_boot_done(boot: *mut Boot) -> u32;
    pub fn apei_c_boot_table(address: u64, length: u32, table: *mut u8, room: usize) -> u32;
    pub fn apei_c_make_block(
        fields: &BlockFields,
        section: *const u8,
        length: usize,
        block: *mut u8,
        room: usize,
        size: &mut u64,
    ) -> u32;
    pub fn apei_c_make_record(
        fields: &RecordFields,
        section: *const u8,
        length: usize,
        record: *mut u8,
        room: usize,
        size: &mut u64,
    ) -> u32;
    pub fn apei_c_client_open(client: *mut Client, table: *const u8, size: usize) -> u32;
    pub fn apei_c_client_close(client: *mut Client) -> u32;
    pub fn apei_c_client_write(client: *mut Client, record: *const u8, size: usize) -> u32;
    pub fn apei_c_client_begin(
        client: *mut Client,
        command: u32,
        id: u64,
        room: u64,
        ids: *mut u64,
        places: usize,
    ) -> u32;
    pub fn apei_c_client_demand(client: *mut Client, demand: &mut Demand) -> u32;
    pub fn apei_c_client_answer(
        client: *mut Client,
        failed: u32,
        value: u64,
        ids: *mut u64,
        places: usize,
    ) -> u32;
    pub fn apei_c_client_result(client: *mut Client, value: &mut u64) -> u32;
    pub fn apei_c_client_range(client: *mut Client, range: &mut Range) -> u32;
}
