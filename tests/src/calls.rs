//! The functions under test, and some of them as values: a test can put a wrong one
//! in the place of one of them and see that the comparison notices.

pub use zap_calls::{
    check, dead, fault, find_match, read, read_table, summary, write, write_table,
};

/// The calls on function records.
#[derive(Clone, Copy)]
pub struct RecordCalls {
    pub read: fn(&[u8], &mut [u64]) -> u64,
    pub summary: fn(&[u8], &mut [u64]) -> u64,
    pub write: fn(u8, &[u8], &[u8], &mut [u8]) -> u64,
    pub fault: fn(&[u8], &[u8], &mut [u8]) -> u64,
}

pub const ARCHIVE: RecordCalls = RecordCalls { read, summary, write, fault };

/// The call for dead pairs.
pub type DeadCall = fn(&[u8], &[u8], &[u8], u8) -> u64;

/// The calls on tables: text into record, record into text.
#[derive(Clone, Copy)]
pub struct TableCalls {
    pub read: fn(&[u8], &mut [u8]) -> u64,
    pub write: fn(&[u8], &mut [u8]) -> u64,
}

pub const TABLE_CALLS: TableCalls = TableCalls { read: read_table, write: write_table };
