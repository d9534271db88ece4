//! Section 4: the journal record, 24 bytes, little-endian.

pub const SIZE: usize = 24;

pub const BEGIN: u8 = 1;
pub const ASSIGN: u8 = 2;
pub const ADD: u8 = 3;
pub const COMMIT: u8 = 4;
pub const ABORT: u8 = 5;

#[derive(Clone, Copy, PartialEq, Eq, Debug)]
pub struct Record {
    pub kind: u8,
    /// Bytes 1 to 3, zero in every record that a call writes.
    pub gap: [u8; 3],
    pub transaction: u32,
    pub key: u32,
    pub value: u32,
    pub time: u64,
}

impl Record {
    pub fn new(kind: u8, transaction: u32, key: u32, value: u32, time: u64) -> Record {
        Record { kind, gap: [0; 3], transaction, key, value, time }
    }

    pub fn from_bytes(bytes: &[u8]) -> Record {
        let four = |at: usize| u32::from_le_bytes([bytes[at], bytes[at + 1], bytes[at + 2], bytes[at + 3]]);
        Record {
            kind: bytes[0],
            gap: [bytes[1], bytes[2], bytes[3]],
            transaction: four(4),
            key: four(8),
            value: four(12),
            time: u64::from(four(16)) | u64::from(four(20)) << 32,
        }
    }

    pub fn to_bytes(self) -> [u8; SIZE] {
        let mut bytes = [0; SIZE];
        bytes[0] = self.kind;
        bytes[1..4].copy_from_slice(&self.gap);
        bytes[4..8].copy_from_slice(&self.transaction.to_le_bytes());
        bytes[8..12].copy_from_slice(&self.key.to_le_bytes());
        bytes[12..16].copy_from_slice(&self.value.to_le_bytes());
        bytes[16..24].copy_from_slice(&self.time.to_le_bytes());
        bytes
    }

    pub fn is_update(&self) -> bool {
        self.kind == ASSIGN || self.kind == ADD
    }

    /// A commit or an abort.
    pub fn is_end(&self) -> bool {
        self.kind == COMMIT || self.kind == ABORT
    }
}

/// The whole records at the start of `bytes`.
pub fn records_of(bytes: &[u8]) -> Vec<Record> {
    bytes.chunks_exact(SIZE).map(Record::from_bytes).collect()
}
