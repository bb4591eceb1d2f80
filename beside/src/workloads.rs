//! Inputs to measure with.

use model::file::write;
use model::tables::{Partition, Task, MOST_TIME};
use model::Tables;

/// A table file and an allocation.
pub struct Input {
    pub file: Vec<u8>,
    pub allocation: Vec<u8>,
}

/// The shipped station.
pub fn shipped() -> Input {
    let file = include_bytes!("../../example/station.tab").to_vec();
    Input { file, allocation: include_bytes!("../../example/station.alloc").to_vec() }
}

fn name(first: u8, k: usize) -> Vec<u8> {
    format!("{}-{k:0>13}", first as char).into_bytes()
}

/// A computer with four cores, 16 partitions, all 120 links and so many tasks, spread evenly, whose load is light. All
/// names are as long as can be.
pub fn full(tasks: usize) -> Input {
    const MS: u128 = 1_000_000_000;
    let partitions = (0..16).map(|k| Partition { period: 50 * MS, name: name(b'p', k) }).collect();
    let tasks = (0..tasks).map(|i| {
        let period = [50, 60, 70, 90, 110][i % 5] * MS;
        let execution = [0, 1, 2, 3].map(|p| MS + (37 * i as u128 + p) % 11 * 100_000_000);
        let requests = [0, 1, 2, 3].map(|p| 500 + (53 * i as u128 + p) % 13 * 50);
        Task { partition: i % 16, period, deadline: period, execution, requests, name: name(b't', i) }
    });
    let links = (0..16).flat_map(|a| (a + 1..16).map(move |b| (a, b))).collect();
    let tables = Tables { cores: 4, partitions, tasks: tasks.collect(), links };
    Input { file: write(&tables), allocation: (0..16).map(|k| k % 4).collect() }
}

/// A computer that takes many steps to judge, about 1.4 million. On each core one partition, with four tasks of almost
/// the shortest period there can be that leave nothing of the core, and below them twelve tasks with the longest limit.
/// The demand of each of these creeps from one job of the four to the next, up to the limit. The numbers were found by a
/// search for many steps.
pub fn slow() -> Input {
    let short = [
        (1_000_000_000, 200_000_000),
        (1_000_023_416, 200_000_000),
        (1_000_039_996, 400_000_000),
        (1_000_073_631, 200_000_000),
    ];
    let mut tasks = vec![];
    let mut add = |partition, period: u128, execution: u128, requests: u128| {
        let name = name(b't', tasks.len());
        let (execution, requests) = ([execution; 4], [requests; 4]);
        tasks.push(Task { partition, period, deadline: period, execution, requests, name });
    };
    for partition in 0..4 {
        for (period, execution) in short {
            add(partition, period, execution, 0);
        }
        for k in 0..12 {
            add(partition, MOST_TIME, if k == 0 { 32_300_000 } else { 1 }, 1);
        }
    }
    let partitions = (0..4).map(|k| Partition { period: MOST_TIME, name: name(b'p', k) }).collect();
    let tables = Tables { cores: 4, partitions, tasks, links: vec![] };
    Input { file: write(&tables), allocation: vec![0, 1, 2, 3] }
}
