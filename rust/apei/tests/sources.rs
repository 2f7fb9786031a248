//! Error sources and boot error regions over a guest whose memory fails some accesses.
use apei::{
    boot_table, check, Acknowledge, BootRegion, Error, Failure, Guest, Item, MappedMemory,
    Notification, Place, Register, Source, Sources, Stop, Unacknowledged,
};

const BLOCK: u64 = 0x40;
const ADDRESS: u64 = 0x10;
const ACKNOWLEDGE: u64 = 0x18;

/// A guest whose memory fails the access with this number, once.
struct Machine {
    memory: [u8; 0x400],
    notices: u32,
    fails: Option<u32>,
}

impl Machine {
    fn new() -> Self {
        Machine {
            memory: [0xA5; 0x400],
            notices: 0,
            fails: None,
        }
    }

    fn counts(&mut self) -> Result<(), &'static str> {
        match self.fails {
            Some(0) => {
                self.fails = None;
                Err("it failed")
            }
            left => {
                self.fails = left.map(|it| it - 1);
                Ok(())
            }
        }
    }

    fn bytes(&mut self, place: Place, size: usize) -> &mut [u8] {
        let Place::Memory(at) = place else {
            panic!("a port");
        };
        &mut self.memory[at as usize..at as usize + size]
    }

    fn number(&mut self, at: u64, size: usize) -> u64 {
        let bytes = self.bytes(Place::Memory(at), size);
        bytes
            .iter()
            .rev()
            .fold(0, |number, byte| number << 8 | u64::from(*byte))
    }

    /// It takes a block, as an operating system does.
    fn take(&mut self, length: usize) -> Option<Vec<u8>> {
        let at = self.number(ADDRESS, 8);
        if self.number(at, 4) == 0 {
            return None;
        }
        let block = self.bytes(Place::Memory(at), length).to_vec();
        self.bytes(Place::Memory(at), 4).fill(0);
        self.memory[ACKNOWLEDGE as usize] |= 1;
        Some(block)
    }
}

impl Guest for Machine {
    type Error = &'static str;

    fn read(&mut self, place: Place, size: u32) -> Result<u64, Self::Error> {
        self.counts()?;
        let Place::Memory(at) = place else {
            panic!("a port");
        };
        Ok(self.number(at, size as usize))
    }

    fn write(&mut self, place: Place, bytes: &[u8]) -> Result<(), Self::Error> {
        self.counts()?;
        self.bytes(place, bytes.len()).copy_from_slice(bytes);
        Ok(())
    }

    fn notify(&mut self, source: u32) -> Result<(), Self::Error> {
        assert_eq!(source, 0);
        self.counts()?;
        self.notices += 1;
        Ok(())
    }
}

fn source() -> Source {
    Source {
        id: 7,
        notification: Notification::default(),
        address: Register::at(ADDRESS),
        block: BLOCK,
        length: 200,
        places: 2,
        acknowledge: Some(Acknowledge {
            register: Register::at(ACKNOWLEDGE),
            preserve: !1,
            write: 1,
        }),
    }
}

/// An error status block without entries, with raw data of one byte again and again.
fn block(length: usize, byte: u8) -> Vec<u8> {
    let mut block = vec![byte; length];
    block[..20].fill(0);
    block[0] = 1;
    block[4] = 20;
    block[8] = (length - 20) as u8;
    block
}

#[test]
fn a_guest_takes_blocks_whole_and_in_order() {
    let mut sources = Sources::open(Machine::new(), &[source()]).unwrap();
    assert_eq!(sources.serve(0).unwrap(), Stop::Rests);
    let blocks: Vec<_> = (0..20).map(|i| block(30 + 8 * i, i as u8 + 1)).collect();
    for block in &blocks {
        sources.submit(0, block).unwrap();
        assert_eq!(sources.serve(0).unwrap(), Stop::Waits);
        assert_eq!(sources.guest_mut().take(block.len()).as_ref(), Some(block));
        assert_eq!(sources.serve(0).unwrap(), Stop::Rests);
    }
    assert_eq!(sources.guest().notices, 20);
}

#[test]
fn an_access_that_failed_is_tried_again() {
    let wanted = block(180, 9);
    for number in 0..20 {
        let mut sources = Sources::open(Machine::new(), &[source()]).unwrap();
        sources.submit(0, &wanted).unwrap();
        sources.guest_mut().fails = Some(number);
        let mut failed = 0;
        loop {
            match sources.serve(0) {
                Ok(stop) => break assert_eq!(stop, Stop::Waits),
                Err(Failure::Guest(_)) => failed += 1,
                Err(other) => panic!("{other}"),
            }
        }
        assert_eq!(failed, u32::from(sources.guest().fails.is_none()));
        assert_eq!(sources.guest_mut().take(180), Some(wanted.clone()));
        assert_eq!(sources.guest().notices, 1);
    }
}

#[test]
fn a_guest_that_starts_again_is_told_again() {
    let mut sources = Sources::open(Machine::new(), &[source()]).unwrap();
    let (first, second) = (block(40, 1), block(60, 2));
    sources.submit(0, &first).unwrap();
    sources.submit(0, &second).unwrap();
    sources.serve(0).unwrap();
    *sources.guest_mut() = Machine::new();
    sources.reset(0, Unacknowledged::TellAgain).unwrap();
    sources.serve(0).unwrap();
    assert_eq!(sources.guest_mut().take(40), Some(first));
    sources.reset(0, Unacknowledged::Forget).unwrap();
    assert_eq!(sources.serve(0).unwrap(), Stop::Rests);
    sources.submit(0, &second).unwrap();
    sources.serve(0).unwrap();
    assert_eq!(sources.guest_mut().take(60), Some(second));
}

#[test]
fn what_is_refused_changes_nothing() {
    let refused = Sources::open(Machine::new(), &[source(), source()])
        .err()
        .unwrap();
    assert_eq!(
        (refused.error, refused.source),
        (Error::Identifier, Some(1))
    );
    let none = Sources::open(Machine::new(), &[]).err().unwrap();
    assert_eq!((none.error, none.source), (Error::Count, None));
    let mut sources = Sources::open(Machine::new(), &[source()]).unwrap();
    assert_eq!(check(Item::Hest, &sources.table()).unwrap().count(), 1);
    assert_eq!(sources.submit(0, &[0; 40]), Err(Error::Block));
    assert_eq!(sources.submit(0, &block(201, 1)), Err(Error::Long));
    assert_eq!(sources.submit(1, &block(40, 1)), Err(Error::Source));
    sources.submit(0, &block(40, 1)).unwrap();
    sources.submit(0, &block(40, 2)).unwrap();
    assert_eq!(sources.submit(0, &block(40, 3)), Err(Error::Full));
}

#[test]
fn a_region_keeps_the_blocks_that_were_laid() {
    let mut region = BootRegion::open(Machine::new(), BLOCK, 100).unwrap();
    let (first, second) = (block(40, 1), block(60, 2));
    region.lay(&first).unwrap();
    assert!(matches!(
        region.lay(&block(61, 3)),
        Err(Failure::Refused(Error::Long))
    ));
    region.lay(&second).unwrap();
    let at = BLOCK as usize;
    assert_eq!(region.guest().memory[at..at + 40], first);
    assert_eq!(region.guest().memory[at + 40..at + 100], second);
    assert_eq!(region.guest().memory[at + 100], 0xA5);
    let table = boot_table(BLOCK, 100).unwrap();
    assert!(check(Item::Bert, &table).is_ok());
    assert_eq!(boot_table(0, 100), Err(Error::Region));
    assert!(BootRegion::open(Machine::new(), 2, 100).is_err());
}

#[test]
fn mapped_memory_is_reached_by_single_accesses() {
    let mut bytes = vec![0_u64; 4];
    // SAFETY: the bytes stay to the end, and are reached by `memory` alone.
    let memory = unsafe { MappedMemory::new(bytes.as_mut_ptr().cast(), 32, 0x1000) }.unwrap();
    memory.write(0x1000, &[1, 2, 3, 4, 5, 6, 7, 8]).unwrap();
    memory.write(0x100B, &[9, 10, 11]).unwrap();
    assert_eq!(memory.read(0x1000, 8), Some(0x0807_0605_0403_0201));
    assert_eq!(memory.read(0x1004, 4), Some(0x0807_0605));
    assert_eq!(memory.read(0x100C, 2), Some(0x0B0A));
    assert_eq!(memory.read(0x1002, 4), None);
    assert_eq!(memory.read(0x1000, 3), None);
    assert_eq!(memory.read(0x1020, 1), None);
    assert_eq!(memory.write(0x101F, &[0, 0]), None);
    assert_eq!(memory.write(0xFFF, &[0]), None);
}
