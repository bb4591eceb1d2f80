//! The table file: reading it and writing it.

use crate::refusal::*;
use crate::tables::*;

pub const HEADER_BYTES: usize = 3;
pub const PARTITION_BYTES: usize = 6;
pub const TASK_BYTES: usize = 44;
pub const LINK_BYTES: usize = 1;

/// The number in `width` bits of `bytes` from bit `from` on, most significant bit first.
fn bits(bytes: &[u8], from: usize, width: usize) -> u128 {
    (from..from + width).fold(0, |n, i| n * 2 + u128::from(bytes[i / 8] >> (7 - i % 8) & 1))
}

/// The numbers in successive fields of these widths.
fn fields(bytes: &[u8], widths: &[usize]) -> Vec<u128> {
    let mut from = 0;
    widths
        .iter()
        .map(|&width| {
            from += width;
            bits(bytes, from - width, width)
        })
        .collect()
}

const HEADER: [usize; 5] = [3, 5, 7, 7, 2];
const PARTITION: [usize; 2] = [44, 4];
const TASK: [usize; 12] = [4, 44, 44, 44, 44, 44, 44, 20, 20, 20, 20, 4];
const LINK: [usize; 2] = [4, 4];

/// So many bytes from `at` on, if the file has them.
fn part(file: &[u8], at: usize, len: usize) -> Option<&[u8]> {
    file.get(at..at + len)
}

/// Reads a table file.
pub fn read(file: &[u8]) -> Result<Tables, Refusal> {
    let Some(header) = part(file, 0, HEADER_BYTES) else {
        return refuse(INCOMPLETE, 0);
    };
    let counts = fields(header, &HEADER);
    let [cores, partitions, tasks, links, spare] = counts[..] else { unreachable!() };
    if cores < 1
        || cores > MOST_CORES as u128
        || partitions > MOST_PARTITIONS as u128
        || tasks > MOST_TASKS as u128
        || links > MOST_LINKS as u128
        || spare != 0
    {
        return refuse(FIELD_RANGE, 0);
    }
    let partition_count = partitions as usize;
    let mut tables = Tables { cores: cores as usize, partitions: vec![], tasks: vec![], links: vec![] };
    let mut at = HEADER_BYTES;

    for _ in 0..partitions {
        let Some(row) = part(file, at, PARTITION_BYTES) else {
            return refuse(INCOMPLETE, at);
        };
        let row = fields(row, &PARTITION);
        if !period_in_range(row[0]) {
            return refuse(FIELD_RANGE, at);
        }
        let name = read_name(file, at, PARTITION_BYTES, row[1] as usize)?;
        tables.partitions.push(Partition { period: row[0], name: name.to_vec() });
        at += PARTITION_BYTES + name.len();
    }

    for _ in 0..tasks {
        let Some(row) = part(file, at, TASK_BYTES) else {
            return refuse(INCOMPLETE, at);
        };
        let row = fields(row, &TASK);
        let mut task = Task {
            partition: row[0] as usize,
            period: row[1],
            deadline: row[2],
            execution: [row[3], row[4], row[5], row[6]],
            requests: [row[7], row[8], row[9], row[10]],
            name: vec![],
        };
        if first_out_of_range(&numbers(&task)).is_some() {
            return refuse(FIELD_RANGE, at);
        }
        if task.partition >= partition_count {
            return refuse(ROW_PARTITION, at);
        }
        let before = tables.tasks.iter().filter(|other| other.partition == task.partition).count();
        if before >= MOST_TASKS_OF_PARTITION {
            return refuse(PARTITION_FULL, at);
        }
        task.name = read_name(file, at, TASK_BYTES, row[11] as usize)?.to_vec();
        at += TASK_BYTES + task.name.len();
        tables.tasks.push(task);
    }

    for _ in 0..links {
        let Some(row) = part(file, at, LINK_BYTES) else {
            return refuse(INCOMPLETE, at);
        };
        let row = fields(row, &LINK);
        let link = (row[0] as usize, row[1] as usize);
        if link.0 >= partition_count || link.1 >= partition_count {
            return refuse(ROW_PARTITION, at);
        }
        let follows = match tables.links.last() {
            Some(&last) => last < link,
            None => true,
        };
        if link.0 >= link.1 || !follows {
            return refuse(LINK_ORDER, at);
        }
        tables.links.push(link);
        at += LINK_BYTES;
    }

    if at < file.len() {
        return refuse(BYTES_AFTER_END, at);
    }
    Ok(tables)
}

/// The name behind the fixed part of the row at `at`.
fn read_name(file: &[u8], at: usize, fixed: usize, len: usize) -> Result<&[u8], Refusal> {
    match part(file, at + fixed, len) {
        None => refuse(INCOMPLETE, at),
        Some(name) if !name_in_range(name) => refuse(BAD_NAME, at),
        Some(name) => Ok(name),
    }
}

/// A file being written, bit by bit.
#[derive(Default)]
pub struct Writer {
    bits: Vec<bool>,
}

impl Writer {
    /// Appends the low `width` bits of a number, which must fit in them.
    pub fn field(&mut self, number: u128, width: usize) -> &mut Writer {
        assert!(number >> width == 0, "{number} does not fit in {width} bits");
        self.bits.extend((0..width).rev().map(|i| number >> i & 1 == 1));
        self
    }

    pub fn name(&mut self, name: &[u8]) -> &mut Writer {
        self.field(name.len() as u128, 4);
        for &byte in name {
            self.field(u128::from(byte), 8);
        }
        self
    }

    pub fn bytes(&self) -> Vec<u8> {
        assert_eq!(self.bits.len() % 8, 0);
        self.bits.chunks(8).map(|eight| eight.iter().fold(0, |n, &bit| n * 2 + u8::from(bit))).collect()
    }
}

/// Writes a table file. Numbers out of range are written as they are, as long as their fields can hold them, so that
/// damaged files can be made.
pub fn write(tables: &Tables) -> Vec<u8> {
    let mut out = Writer::default();
    out.field(tables.cores as u128, 3)
        .field(tables.partitions.len() as u128, 5)
        .field(tables.tasks.len() as u128, 7)
        .field(tables.links.len() as u128, 7)
        .field(0, 2);
    for partition in &tables.partitions {
        out.field(partition.period, 44).name(&partition.name);
    }
    for task in &tables.tasks {
        out.field(task.partition as u128, 4).field(task.period, 44).field(task.deadline, 44);
        for c in task.execution {
            out.field(c, 44);
        }
        for h in task.requests {
            out.field(h, 20);
        }
        out.name(&task.name);
    }
    for &(first, second) in &tables.links {
        out.field(first as u128, 4).field(second as u128, 4);
    }
    out.bytes()
}
