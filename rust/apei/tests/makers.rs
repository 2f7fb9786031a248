//! What is made is well formed, and has the section.

use apei::{check, make_block, make_record, BlockFields, Item, RecordFields, Severity};

const SECTION: [u8; 5] = [1, 2, 3, 4, 5];

#[test]
fn a_block_has_its_section() {
    let fields = BlockFields {
        severity: Severity::Corrected,
        kind: [7; 16],
        flags: 1,
        fru: None,
        fru_text: Some(*b"DIMM 3\0\0\0\0\0\0\0\0\0\0\0\0\0\0"),
        timestamp: Some(0x2024_1231_0023_5959),
    };
    let block = make_block(&fields, &SECTION).unwrap();
    let parts: Vec<_> = check(Item::Block, &block).unwrap().collect();
    assert_eq!(parts.len(), 1);
    assert_eq!(parts[0].body, SECTION);
    assert_eq!(parts[0].header[..16], [7; 16]);
    assert_eq!(parts[0].header[22], 6);
    assert_eq!(&parts[0].header[44..50], b"DIMM 3");
    assert_eq!(block[0], 0x12);
    assert_eq!(block.len(), 92 + SECTION.len());
}

#[test]
fn a_record_has_its_section() {
    let fields = RecordFields {
        id: 77,
        severity: Severity::Fatal,
        timestamp: None,
        creator: [1; 16],
        notification: [2; 16],
        flags: 0,
        kind: [3; 16],
        section_flags: 1,
        fru: Some([4; 16]),
        fru_text: None,
    };
    let record = make_record(&fields, &SECTION).unwrap();
    let parts: Vec<_> = check(Item::Record, &record).unwrap().collect();
    assert_eq!(parts.len(), 1);
    assert_eq!(parts[0].body, SECTION);
    assert_eq!(parts[0].header[16..48], [[3; 16], [4; 16]].concat());
    assert_eq!(record[96..104], 77u64.to_le_bytes());
    assert_eq!(record.len(), 200 + SECTION.len());
}
