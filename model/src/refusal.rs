//! Refusals: a number and what it tells.

#[derive(Clone, Copy, Debug, PartialEq, Eq)]
pub struct Refusal {
    pub number: u32,
    pub tells: u128,
}

pub const INCOMPLETE: u32 = 1;
pub const FIELD_RANGE: u32 = 2;
pub const BAD_NAME: u32 = 3;
pub const ROW_PARTITION: u32 = 4;
pub const LINK_ORDER: u32 = 5;
pub const BYTES_AFTER_END: u32 = 6;
pub const PARTITION_FULL: u32 = 7;
pub const SETTING: u32 = 8;
pub const NO_PARTITION: u32 = 9;
pub const NO_CORE: u32 = 10;
pub const NO_TASK: u32 = 11;
pub const NOT_PLACED: u32 = 12;
pub const ALLOCATION_LENGTH: u32 = 13;
pub const NUMBER_RANGE: u32 = 14;
pub const LATE: u32 = 15;
pub const PLACED: u32 = 16;
pub const SHORT_BUFFER: u32 = 17;

/// Refuse with this number, telling this.
pub fn refuse<A>(number: u32, tells: usize) -> Result<A, Refusal> {
    Err(Refusal { number, tells: tells as u128 })
}

/// One sentence for each refusal that the programs can meet.
pub fn sentence(number: u32) -> &'static str {
    match number {
        INCOMPLETE => "The file ends before the header or row at this offset is complete.",
        FIELD_RANGE => "A field of the header or row at this offset is out of range.",
        BAD_NAME => "The name of the row at this offset is empty or has a forbidden byte.",
        ROW_PARTITION => "The row at this offset names a partition that does not exist.",
        LINK_ORDER => "The link at this offset breaks the order of links.",
        BYTES_AFTER_END => "Bytes follow the last row from this offset on.",
        PARTITION_FULL => "The task at this offset is the 17th of its partition.",
        NO_CORE => "The entry of the allocation at this index names no core.",
        ALLOCATION_LENGTH => "An allocation of this length is not one entry for each partition.",
        LATE => "With this allocation the task of this number has no response time within its limit.",
        _ => panic!("no program meets refusal {number}"),
    }
}
