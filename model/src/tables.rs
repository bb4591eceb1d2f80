//! The tables of a computer and their ranges.

pub const LEAST_PERIOD: u128 = 1_000_000_000;
pub const MOST_TIME: u128 = 10_000_000_000_000;
pub const MOST_REQUESTS: u128 = 1_000_000;
pub const MOST_CORES: usize = 4;
pub const MOST_PARTITIONS: usize = 16;
pub const MOST_TASKS: usize = 64;
pub const MOST_LINKS: usize = 120;
pub const MOST_TASKS_OF_PARTITION: usize = 16;
pub const MOST_NAME: usize = 15;

#[derive(Clone, Debug, PartialEq, Eq)]
pub struct Partition {
    pub period: u128,
    pub name: Vec<u8>,
}

#[derive(Clone, Debug, PartialEq, Eq)]
pub struct Task {
    pub partition: usize,
    pub period: u128,
    pub deadline: u128,
    /// execution time of a job, for each of four cores
    pub execution: [u128; 4],
    /// requests of a job, for each of four cores
    pub requests: [u128; 4],
    pub name: Vec<u8>,
}

#[derive(Clone, Debug, PartialEq, Eq)]
pub struct Tables {
    pub cores: usize,
    pub partitions: Vec<Partition>,
    pub tasks: Vec<Task>,
    pub links: Vec<(usize, usize)>,
}

pub fn period_in_range(t: u128) -> bool {
    (LEAST_PERIOD..=MOST_TIME).contains(&t)
}

/// The ten numbers of a task in their order: period, deadline, four execution times, four counts of requests.
pub fn numbers(task: &Task) -> [u128; 10] {
    let (c, h) = (task.execution, task.requests);
    [task.period, task.deadline, c[0], c[1], c[2], c[3], h[0], h[1], h[2], h[3]]
}

/// The position of the first of the ten numbers that is out of range.
pub fn first_out_of_range(numbers: &[u128; 10]) -> Option<usize> {
    numbers.iter().enumerate().position(|(i, &n)| match i {
        0 => !period_in_range(n),
        1..=5 => !(1..=MOST_TIME).contains(&n),
        _ => n > MOST_REQUESTS,
    })
}

/// Whether a name has 1 to 15 bytes, each from 33 to 126.
pub fn name_in_range(name: &[u8]) -> bool {
    (1..=MOST_NAME).contains(&name.len()) && name.iter().all(|b| (33..=126).contains(b))
}
