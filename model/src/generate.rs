//! Inputs at random, the same for the same seed: table files, allocations, piles and histories of changes.

use crate::arbiter::{station, Arbiter, Bottom, Pile};
use crate::changes::{self, Change};
use crate::file;
use crate::plan::{Plan, UNPLACED};
use crate::tables::*;

/// A source of numbers that a seed determines.
#[derive(Clone, Debug)]
pub struct Random {
    state: u64,
}

impl Random {
    pub fn new(seed: u64) -> Random {
        Random { state: seed }
    }

    pub fn bits(&mut self) -> u64 {
        self.state = self.state.wrapping_add(0x9E37_79B9_7F4A_7C15);
        let z = (self.state ^ (self.state >> 30)).wrapping_mul(0xBF58_476D_1CE4_E5B9);
        let z = (z ^ (z >> 27)).wrapping_mul(0x94D0_49BB_1331_11EB);
        z ^ (z >> 31)
    }

    /// A number below n, which is above 0.
    pub fn below(&mut self, n: usize) -> usize {
        (self.bits() % n as u64) as usize
    }

    /// A number from `least` to `most`.
    pub fn between(&mut self, least: u128, most: u128) -> u128 {
        least + u128::from(self.bits()) % (most - least + 1)
    }

    /// True once in n times.
    pub fn once_in(&mut self, n: usize) -> bool {
        self.below(n) == 0
    }

    pub fn pick<A: Clone>(&mut self, from: &[A]) -> A {
        from[self.below(from.len())].clone()
    }

    /// A number from `least` to `most`, small ones as likely as large ones.
    fn by_size(&mut self, least: u128, most: u128) -> u128 {
        let widths = 128 - (most - least + 1).leading_zeros();
        let width = self.below(widths as usize + 1);
        least + self.between(0, (1 << width) - 1).min(most - least)
    }

    /// A number from `least` to `most`, often at or beside one of the ends.
    fn with_ends(&mut self, least: u128, most: u128) -> u128 {
        match self.below(8) {
            0 | 1 => least,
            2 => (least + 1).min(most),
            3 | 4 => most,
            5 => most.max(least + 1) - 1,
            6 => self.by_size(least, most),
            _ => self.between(least, most),
        }
    }
}

/// What kind of tables to make.
#[derive(Clone, Copy, Debug, PartialEq, Eq)]
pub enum Shape {
    /// at most three partitions and four tasks
    Few,
    /// ten partitions and more, up to as many rows as there can be
    Many,
    /// the largest numbers of rows
    Full,
    /// every number often at an end of its range
    Ends,
    /// numbers of all sizes
    Wide,
    /// a computer with an allocation under which every task is in time with little to spare
    Timely,
}

pub const SHAPES: [Shape; 6] = [Shape::Few, Shape::Many, Shape::Full, Shape::Ends, Shape::Wide, Shape::Timely];

fn name(random: &mut Random) -> Vec<u8> {
    let len = random.with_ends(1, MOST_NAME as u128);
    (0..len).map(|_| random.with_ends(33, 126) as u8).collect()
}

/// Links between so many partitions, about one in `n` of all there can be.
fn links(random: &mut Random, partitions: usize, n: usize) -> Vec<(usize, usize)> {
    let mut all = vec![];
    for a in 0..partitions {
        all.extend((a + 1..partitions).map(|b| (a, b)));
    }
    all.retain(|_| random.once_in(n));
    all
}

/// So many tasks, spread over the partitions with at most 16 in each; none where there is no partition.
fn owners(random: &mut Random, partitions: usize, tasks: usize) -> Vec<usize> {
    let mut owners: Vec<usize> = vec![];
    for _ in 0..tasks.min(partitions * MOST_TASKS_OF_PARTITION) {
        let mut k = random.below(partitions);
        while owners.iter().filter(|&&other| other == k).count() == MOST_TASKS_OF_PARTITION {
            k = (k + 1) % partitions;
        }
        owners.push(k);
    }
    owners
}

/// The ten numbers of a task, all in range.
fn task_numbers(random: &mut Random, shape: Shape) -> [u128; 10] {
    let mut one = |least, most| match shape {
        Shape::Ends => random.with_ends(least, most),
        _ => random.by_size(least, most),
    };
    let mut numbers = [0; 10];
    for (k, number) in numbers.iter_mut().enumerate() {
        *number = match k {
            0 => one(LEAST_PERIOD, MOST_TIME),
            1..=5 => one(1, MOST_TIME),
            _ => one(0, MOST_REQUESTS),
        };
    }
    numbers
}

fn task(partition: usize, numbers: [u128; 10], name: Vec<u8>) -> Task {
    let [period, deadline, c0, c1, c2, c3, h0, h1, h2, h3] = numbers;
    Task { partition, period, deadline, execution: [c0, c1, c2, c3], requests: [h0, h1, h2, h3], name }
}

/// Tables that a table file can hold.
pub fn tables(random: &mut Random, shape: Shape) -> Tables {
    if shape == Shape::Timely {
        return timely(random).0;
    }
    let cores = random.between(1, MOST_CORES as u128) as usize;
    let (partitions, tasks, one_link_in) = match shape {
        Shape::Few => (random.below(4), random.below(5), 2),
        Shape::Many => (10 + random.below(7), 32 + random.below(33), 3),
        Shape::Full => (MOST_PARTITIONS, MOST_TASKS, 1),
        _ => (random.below(MOST_PARTITIONS + 1), random.below(MOST_TASKS + 1), 1 + random.below(4)),
    };
    let partition = |random: &mut Random| Partition {
        period: match shape {
            Shape::Ends => random.with_ends(LEAST_PERIOD, MOST_TIME),
            _ => random.by_size(LEAST_PERIOD, MOST_TIME),
        },
        name: name(random),
    };
    let links = links(random, partitions, one_link_in);
    let partitions: Vec<Partition> = (0..partitions).map(|_| partition(random)).collect();
    let owners = owners(random, partitions.len(), tasks);
    let tasks = owners.into_iter().map(|k| task(k, task_numbers(random, shape), name(random))).collect();
    Tables { cores, partitions, tasks, links }
}

/// A computer of any size and an allocation of it that our station's pile accepts. Deadlines lie close above the times.
pub fn timely(random: &mut Random) -> (Tables, Vec<u8>) {
    let cores = random.pick(&[1, 2, 2, 3, 3, 3, 4, 4, 4, 4]);
    let partitions = if random.once_in(16) { MOST_PARTITIONS } else { 1 + random.below(8) };
    let tasks = 1 + random.below(4 * partitions);
    timely_of(random, cores, partitions, tasks)
}

/// The same with these numbers of cores, partitions and tasks; none of them may be 0.
pub fn timely_of(random: &mut Random, cores: usize, partitions: usize, tasks: usize) -> (Tables, Vec<u8>) {
    const MS: u128 = 1_000_000_000;
    let count = tasks;
    let partitions: Vec<Partition> = (0..partitions)
        .map(|_| Partition { period: random.pick(&[10, 20, 20, 40, 80]) * MS, name: name(random) })
        .collect();
    let one_link_in = 1 + random.below(4);
    let links = links(random, partitions.len(), one_link_in);
    let mut tasks: Vec<Task> = vec![];
    for k in owners(random, partitions.len(), count) {
        let period = random.pick(&[5, 10, 20, 20, 40, 100]) * MS;
        let execution = random.between(1, period / 6);
        let requests = random.by_size(0, 10_000);
        let mut each = |n: u128| [0; 4].map(|_: u128| n + n * random.between(0, 30) / 100);
        let (execution, requests) = (each(execution), each(requests));
        tasks.push(Task { partition: k, period, deadline: period, execution, requests, name: name(random) });
    }
    let allocation: Vec<u8> =
        partitions.iter().map(|_| if random.once_in(8) { UNPLACED } else { random.below(cores) as u8 }).collect();

    // halve the load until every task is in time, then take up most of what is left
    let mut tables = Tables { cores, partitions, tasks, links };
    let arbiter = station(cores);
    loop {
        let plan = Plan::of_tables(tables.clone()).allocated(&allocation).expect("one core for each partition");
        if plan.first_late(&arbiter).is_none() {
            for (i, time) in plan.all_times(&arbiter).into_iter().enumerate() {
                if time > 0 {
                    let slack = random.between(0, 40);
                    tables.tasks[i].deadline = time + time * slack / 100;
                }
            }
            return (tables, allocation);
        }
        for task in &mut tables.tasks {
            task.execution = task.execution.map(|c| c.div_ceil(2));
            task.requests = task.requests.map(|h| h / 2);
        }
    }
}

/// A table file that is accepted.
pub fn valid_file(random: &mut Random) -> Vec<u8> {
    let shape = random.pick(&SHAPES);
    file::write(&tables(random, shape))
}

/// The file without some bytes at its end.
pub fn cut(random: &mut Random, tab: &[u8]) -> Vec<u8> {
    tab[..random.below(tab.len().max(1))].to_vec()
}

/// The bytes with one bit turned.
pub fn bit_turned(random: &mut Random, bytes: &[u8]) -> Vec<u8> {
    let mut turned = bytes.to_vec();
    if !bytes.is_empty() {
        turned[random.below(bytes.len())] ^= 1 << random.below(8);
    }
    turned
}

/// A table file with a fault, most of the time: cut, a bit turned, bytes behind it, or a row that breaks a rule.
pub fn damaged_file(random: &mut Random) -> Vec<u8> {
    let shape = random.pick(&SHAPES);
    let mut tables = tables(random, shape);
    let whole = file::write(&tables);
    match random.below(10) {
        0 => cut(random, &whole),
        1 => bit_turned(random, &whole),
        2 => {
            // a bit of the header
            let head = bit_turned(random, &whole[..file::HEADER_BYTES]);
            [&head, &whole[file::HEADER_BYTES..]].concat()
        }
        3 => {
            let after = 1 + random.below(3);
            [whole, (0..after).map(|_| random.bits() as u8).collect()].concat()
        }
        4 => {
            (0..random.below(80)).map(|_| random.bits() as u8).collect() // no table file at all
        }
        5 if !tables.partitions.is_empty() => {
            let k = random.below(tables.partitions.len());
            tables.partitions[k].period = random.pick(&[0, LEAST_PERIOD - 1, MOST_TIME + 1, (1 << 44) - 1]);
            file::write(&tables)
        }
        6 if !tables.tasks.is_empty() => {
            let i = random.below(tables.tasks.len());
            let old = tables.tasks[i].clone();
            let mut numbers = numbers(&old);
            let k = random.below(10);
            numbers[k] = match k {
                0 => random.pick(&[0, LEAST_PERIOD - 1, MOST_TIME + 1, (1 << 44) - 1]),
                1..=5 => random.pick(&[0, MOST_TIME + 1, (1 << 44) - 1]),
                _ => random.pick(&[MOST_REQUESTS + 1, (1 << 20) - 1]),
            };
            tables.tasks[i] = task(old.partition, numbers, old.name);
            file::write(&tables)
        }
        7 if !tables.tasks.is_empty() => {
            // a partition that is not there, or more tasks of one than it can have
            let i = random.below(tables.tasks.len());
            if random.once_in(2) {
                let more = tables.tasks[i].clone();
                let room = MOST_TASKS - tables.tasks.len();
                tables.tasks.extend(vec![more; room.min(MOST_TASKS_OF_PARTITION)]);
            } else {
                tables.tasks[i].partition = random.below(16).max(tables.partitions.len().min(15));
            }
            file::write(&tables)
        }
        8 if !tables.links.is_empty() => {
            let i = random.below(tables.links.len());
            match random.below(4) {
                0 => tables.links[i] = (tables.links[i].1, tables.links[i].0),
                1 => tables.links[i].1 = random.below(16),
                2 => tables.links[i].1 = tables.links[i].0,
                _ => tables.links.swap(0, i),
            }
            file::write(&tables)
        }
        _ => {
            // a name that is empty or has a byte out of range
            let names = tables.partitions.len() + tables.tasks.len();
            if names > 0 {
                let k = random.below(names);
                let bad = random.pick(&[0, 10, 32, 127, 255]);
                let here = match k.checked_sub(tables.partitions.len()) {
                    None => &mut tables.partitions[k].name,
                    Some(i) => &mut tables.tasks[i].name,
                };
                if random.once_in(3) {
                    here.clear();
                } else {
                    let at = random.below(here.len());
                    here[at] = bad;
                }
            }
            file::write(&tables)
        }
    }
}

/// An allocation of any kind: each partition anywhere, all on one core, few or none placed, an entry that names no
/// core, a wrong length.
pub fn allocation(random: &mut Random, tables: &Tables) -> Vec<u8> {
    let (partitions, cores) = (tables.partitions.len(), tables.cores);
    let kind = random.below(10);
    let one = random.below(cores) as u8;
    let mut entries: Vec<u8> = (0..partitions)
        .map(|_| match kind {
            0 => one,
            1 => UNPLACED,
            2 | 3 if !random.once_in(3) => UNPLACED,
            4 | 5 if random.once_in(4) => UNPLACED,
            _ => random.below(cores) as u8,
        })
        .collect();
    match kind {
        8 if !entries.is_empty() => {
            for _ in 0..1 + random.below(2) {
                let at = random.below(entries.len());
                entries[at] = random.pick(&[cores as u8, 4, 127, 254]).max(cores as u8);
            }
        }
        9 => {
            let len = random.pick(&[0, entries.len().max(1) - 1, entries.len() + 1, 16, 17]);
            entries.resize(len, one);
        }
        _ => (),
    }
    entries
}

/// A pile with settings in range. A refresh that takes up more than half of the time is left out, since the steps to a
/// fixed point would be many.
pub fn pile(random: &mut Random) -> Pile {
    let bottom = random.pick(&[Bottom::RequestDriven, Bottom::JobDriven, Bottom::Lesser, Bottom::Lesser]);
    let refresh = random.pick(&[
        None,
        None,
        Some((7_800_000, 350_000)),
        Some((1_000_000, 0)),
        Some((1_000_000, 500_000)),
        Some((10_000_000_000, 1_000_000)),
        Some((10_000_000, 1)),
    ]);
    if random.once_in(2) {
        return Pile { bottom, refresh, ..Pile::STATION };
    }
    let mut setting = || random.with_ends(0, 100_000);
    Pile { bottom, l: setting(), conflict: setting(), reorder: setting(), refresh }
}

/// A number that is no index below `count`.
fn beyond(random: &mut Random, count: usize) -> usize {
    let more = count + random.below(1_000);
    random.pick(&[count, count + 1, more, u32::MAX as usize + 1, usize::MAX])
}

/// Other numbers for a task: eased, with a deadline at its time or just below it, heavier, or anything in range.
fn retime(random: &mut Random, plan: &Plan, arbiter: &dyn Arbiter, i: usize) -> [u128; 10] {
    let mut numbers = numbers(&plan.tables.tasks[i]);
    match random.below(8) {
        0 | 1 => {
            let per_cent = random.between(50, 100);
            for (k, number) in numbers.iter_mut().enumerate() {
                *number = match k {
                    0 | 1 => (*number + *number * random.between(0, 50) / 100).min(MOST_TIME),
                    2..=5 => (*number * per_cent / 100).max(1),
                    _ => *number * per_cent / 100,
                };
            }
        }
        2 | 3 => {
            // exactly in time, or too late by 1
            if let Some(time) = plan.time(arbiter, i) {
                numbers[1] = (time - u128::from(random.once_in(2))).max(1);
            }
        }
        4 => numbers[0] = (numbers[0] / 2).max(LEAST_PERIOD),
        5 | 6 => {
            let per_cent = random.between(100, 200);
            for (k, number) in numbers.iter_mut().enumerate().skip(2) {
                let most = if k < 6 { MOST_TIME } else { MOST_REQUESTS };
                *number = (*number * per_cent / 100).min(most);
            }
        }
        _ => return task_numbers(random, Shape::Wide),
    }
    numbers
}

/// A change that one of the checks before the last refuses.
fn faulty(random: &mut Random, plan: &Plan) -> Change {
    let (partitions, tasks, cores) = (plan.core.len(), plan.tables.tasks.len(), plan.tables.cores);
    match random.below(8) {
        0 => Change::Place { partition: beyond(random, partitions), core: random.below(5) },
        1 if partitions > 0 => Change::Place { partition: random.below(partitions), core: beyond(random, cores) },
        2 => Change::Withdraw { partition: beyond(random, partitions) },
        3 if plan.core.contains(&None) => {
            let unplaced: Vec<usize> = (0..partitions).filter(|&k| plan.core[k].is_none()).collect();
            Change::Withdraw { partition: random.pick(&unplaced) }
        }
        4 if tasks > 0 => {
            let task = random.below(tasks);
            let mut numbers = numbers(&plan.tables.tasks[task]);
            for _ in 0..1 + random.below(2) {
                let k = random.below(10);
                numbers[k] = match k {
                    0 => random.pick(&[0, LEAST_PERIOD - 1, MOST_TIME + 1, u128::from(u64::MAX)]),
                    1..=5 => random.pick(&[0, MOST_TIME + 1, u128::from(u64::MAX)]),
                    _ => random.pick(&[MOST_REQUESTS + 1, u128::from(u32::MAX) + 1, u128::from(u64::MAX)]),
                };
            }
            Change::Retime { task, numbers }
        }
        5 => Change::Retime { task: beyond(random, tasks), numbers: task_numbers(random, Shape::Ends) },
        6 => {
            let len = random.pick(&[partitions + 1, partitions.max(1) - 1, 0, 17, 40]);
            let len = if len == partitions { len + 1 } else { len };
            Change::Adopt { allocation: vec![0; len] }
        }
        _ => {
            let mut allocation: Vec<u8> = vec![UNPLACED; partitions];
            match partitions {
                0 => allocation.push(0),
                _ => allocation[random.below(partitions)] = cores as u8 + random.below(200) as u8,
            }
            Change::Adopt { allocation }
        }
    }
}

/// The allocation that a plan has.
fn present(plan: &Plan) -> Vec<u8> {
    plan.core.iter().map(|core| core.map_or(UNPLACED, |p| p as u8)).collect()
}

/// A change that no check before the last refuses, if the plan has anything to change; it may be late.
fn sound(random: &mut Random, plan: &Plan, arbiter: &dyn Arbiter) -> Change {
    let (partitions, tasks, cores) = (plan.core.len(), plan.tables.tasks.len(), plan.tables.cores);
    let placed: Vec<usize> = (0..partitions).filter(|&k| plan.core[k].is_some()).collect();
    match random.below(10) {
        0..=2 if partitions > 0 => Change::Place { partition: random.below(partitions), core: random.below(cores) },
        3 | 4 if !placed.is_empty() => Change::Withdraw { partition: random.pick(&placed) },
        5..=8 if tasks > 0 => {
            let task = random.below(tasks);
            Change::Retime { task, numbers: retime(random, plan, arbiter, task) }
        }
        _ => {
            let mut allocation = present(plan);
            for _ in 0..random.below(3) {
                if partitions > 0 {
                    let entry = if random.once_in(4) { UNPLACED } else { random.below(cores) as u8 };
                    allocation[random.below(partitions)] = entry;
                }
            }
            Change::Adopt { allocation }
        }
    }
}

/// A history of so many changes on a plan with these tables, with some of them accepted, late, and refused for other
/// reasons under the arbiter. It begins with an adoption of `first`, if that is given.
pub fn history(
    random: &mut Random,
    tables: &Tables,
    arbiter: &dyn Arbiter,
    first: Option<Vec<u8>>,
    len: usize,
) -> Vec<Change> {
    let mut plan = Plan::of_tables(tables.clone());
    let mut first = first;
    let mut changes = vec![];
    while changes.len() < len {
        let change = match first.take() {
            Some(allocation) => Change::Adopt { allocation },
            None if random.once_in(6) => faulty(random, &plan),
            None => sound(random, &plan, arbiter),
        };
        let _ = plan.change(arbiter, &change);
        changes.push(change);
    }
    changes
}

/// A text of changes that says these, with comments, empty lines and zeros in front of numbers here and there.
pub fn changes_text(random: &mut Random, list: &[Change]) -> Vec<u8> {
    let mut text = String::new();
    for change in list {
        if random.once_in(6) {
            text += random.pick(&["\n", "# next\n", "#\n", "##  adopt 0 0\n", "\n\n"]);
        }
        let mut line = changes::line(change);
        match random.below(8) {
            0 => line = line.replace(" -", " 255"),
            1 => line = line.replacen(' ', " 00", 1).replace(" 00-", " -"),
            _ => (),
        }
        text += &line;
    }
    if random.once_in(4) {
        text.pop();
    }
    text.into_bytes()
}

const BAD_LINES: [&str; 12] = [
    "stop",
    " ",
    "adopt  0",
    "adopt 256",
    "place 0",
    "place 0 0 ",
    "withdraw x",
    "withdraw 18446744073709551616",
    "retime 0 1 2 3",
    "\tplace 0 0",
    "place 0 0\r",
    "Adopt",
];

/// The same with a fault, most of the time: a line that cannot be read, a bit turned, the end cut off, more changes than
/// are played, more bytes than are considered.
pub fn damaged_changes_text(random: &mut Random, list: &[Change]) -> Vec<u8> {
    let text = changes_text(random, list);
    match random.below(8) {
        0 | 1 => bit_turned(random, &text),
        2 | 3 => cut(random, &text),
        4 => {
            let most = changes::MOST_CHANGES;
            let before = random.between((most - list.len().min(most)) as u128, most as u128) as usize;
            ["place 99 0\n".repeat(before).into_bytes(), text].concat()
        }
        5 => {
            let most = changes::MOST_CHANGES_BYTES;
            let before = random.between((most - text.len().min(most - 2)) as u128, most as u128) as usize;
            [vec![b'#'; before - 1], vec![b'\n'], text].concat()
        }
        _ => {
            let after = random.below(list.len() + 1);
            let front = changes::write(&list[..after]);
            let bad = format!("{}\n", random.pick(&BAD_LINES)).into_bytes();
            [front, bad, changes::write(&list[after..])].concat()
        }
    }
}

/// The three files that the programs read.
#[derive(Clone, Debug, PartialEq, Eq)]
pub struct Input {
    pub tab: Vec<u8>,
    pub alloc: Vec<u8>,
    pub changes: Vec<u8>,
}

/// The input with this number. Of every eight about two have a damaged table file, one has valid tables of any shape,
/// and five have tables that admit some changes and not others.
pub fn input(seed: u64) -> Input {
    let mut random = Random::new(seed);
    let random = &mut random;
    let (tab, first) = match random.below(8) {
        0 | 1 => (damaged_file(random), None),
        2 => (valid_file(random), None),
        _ => {
            let (tables, allocation) = timely(random);
            (file::write(&tables), Some(allocation))
        }
    };
    // a damaged file may be a valid one after all
    let empty = Tables { cores: 4, partitions: vec![], tasks: vec![], links: vec![] };
    let tables = file::read(&tab).unwrap_or(empty);
    let alloc = match &first {
        Some(allocation) if !random.once_in(3) => allocation.clone(),
        _ => allocation(random, &tables),
    };
    let len = random.pick(&[0, 1, 5, 10, 20, 40]);
    let first = first.filter(|_| !random.once_in(8));
    let list = history(random, &tables, &station(tables.cores), first, len);
    let changes = if random.once_in(5) { damaged_changes_text(random, &list) } else { changes_text(random, &list) };
    Input { tab, alloc, changes }
}

#[cfg(test)]
mod tests {
    use super::*;
    use crate::refusal::*;
    use crate::rehearsal::rehearse;
    use crate::text::check_text;
    use std::collections::BTreeMap;

    /// What a whole program printed: 0 where accepted, else the number of the refusal.
    fn number_of(text: &[u8]) -> u32 {
        let text = std::str::from_utf8(text).unwrap();
        match text.strip_prefix("refused ") {
            Some(rest) => rest.split(' ').next().unwrap().parse().unwrap(),
            None => 0,
        }
    }

    #[test]
    fn a_seed_determines_everything() {
        // the first numbers that are known of this kind of generator
        let mut random = Random::new(0);
        assert_eq!([random.bits(), random.bits()], [0xE220_A839_7B1D_CDAF, 0x6E78_9E6A_A1B9_65F4]);
        for seed in 0..50 {
            assert_eq!(input(seed), input(seed));
        }
    }

    #[test]
    fn numbers_stay_within_their_ends() {
        let mut random = Random::new(1);
        for (least, most) in [(0, 0), (0, 1), (1, 1), (5, 7), (LEAST_PERIOD, MOST_TIME), (0, MOST_REQUESTS)] {
            let mut seen = [false; 2];
            for _ in 0..500 {
                for n in [random.between(least, most), random.by_size(least, most), random.with_ends(least, most)] {
                    assert!((least..=most).contains(&n));
                    seen[0] |= n == least;
                    seen[1] |= n == most;
                }
            }
            assert_eq!(seen, [true; 2]);
        }
    }

    #[test]
    fn valid_tables_are_read_back() {
        let mut random = Random::new(2);
        for shape in SHAPES {
            for _ in 0..40 {
                let tables = tables(&mut random, shape);
                assert_eq!(file::read(&file::write(&tables)), Ok(tables), "{shape:?}");
            }
        }
        assert_eq!(tables(&mut random, Shape::Full).links.len(), MOST_LINKS);
    }

    #[test]
    fn numbers_at_each_end_occur() {
        let mut random = Random::new(3);
        let all: Vec<[u128; 10]> = (0..20)
            .flat_map(|_| tables(&mut random, Shape::Ends).tasks.into_iter().map(|task| numbers(&task)))
            .collect();
        for k in 0..10 {
            let least = [LEAST_PERIOD, 1, 1, 1, 1, 1, 0, 0, 0, 0][k];
            let most = if k < 6 { MOST_TIME } else { MOST_REQUESTS };
            assert!(all.iter().any(|numbers| numbers[k] == least) && all.iter().any(|numbers| numbers[k] == most));
        }
    }

    #[test]
    fn every_fault_of_a_file_occurs() {
        let mut random = Random::new(4);
        let mut seen: BTreeMap<u32, usize> = BTreeMap::new();
        for _ in 0..2_000 {
            let number = file::read(&damaged_file(&mut random)).err().map_or(0, |refusal| refusal.number);
            *seen.entry(number).or_default() += 1;
        }
        assert!((1..=7).all(|number| seen.get(&number).is_some_and(|&count| count >= 20)), "{seen:?}");
        assert!(seen[&0] <= 600, "{seen:?}");
    }

    #[test]
    fn timely_tables_are_accepted_as_allocated() {
        let mut random = Random::new(5);
        for k in 0..100 {
            let (tables, allocation) =
                if k < 90 { timely(&mut random) } else { timely_of(&mut random, 4, MOST_PARTITIONS, MOST_TASKS) };
            assert!(k < 90 || tables.tasks.len() == MOST_TASKS);
            let text = check_text(&file::write(&tables), &allocation);
            assert_eq!(number_of(&text), 0);
            assert_eq!(text.iter().filter(|&&byte| byte == b'\n').count(), tables.tasks.len());
        }
    }

    #[test]
    fn every_answer_of_check_occurs() {
        let mut seen: BTreeMap<u32, usize> = BTreeMap::new();
        for seed in 0..2_000 {
            let input = input(seed);
            *seen.entry(number_of(&check_text(&input.tab, &input.alloc))).or_default() += 1;
        }
        for number in [0, 1, 2, 3, 4, 5, 6, 7, NO_CORE, ALLOCATION_LENGTH, LATE] {
            assert!(seen.get(&number).is_some_and(|&count| count >= 10), "{number}: {seen:?}");
        }
        assert!(seen[&0] >= 800, "{seen:?}");
    }

    /// How often each answer occurs in histories under a pile.
    fn answers(pile: Pile, seed: u64, count: usize) -> BTreeMap<u32, usize> {
        let mut random = Random::new(seed);
        let mut seen = BTreeMap::new();
        for _ in 0..count {
            let (tables, allocation) = timely(&mut random);
            let arbiter = pile.arbiter(tables.cores).unwrap();
            let list = history(&mut random, &tables, &*arbiter, Some(allocation), 30);
            assert_eq!(list.len(), 30);
            let (_, log) = rehearse(&file::write(&tables), &*arbiter, &list).unwrap();
            for outcome in log {
                *seen.entry(outcome.verdict.err().map_or(0, |refusal| refusal.number)).or_default() += 1;
            }
        }
        seen
    }

    #[test]
    fn histories_are_mixed() {
        for pile in Pile::kinds() {
            let seen = answers(pile, 6, 60);
            let all: usize = seen.values().sum();
            let (accepted, late) = (seen[&0], seen[&LATE]);
            let other = all - accepted - late;
            assert!(
                accepted * 100 >= all * 30 && late * 100 >= all * 10 && other * 100 >= all * 5,
                "{pile:?} {seen:?}"
            );
            for number in NO_PARTITION..=LATE {
                assert!(seen.contains_key(&number), "{number}: {pile:?} {seen:?}");
            }
        }
    }

    #[test]
    fn piles_are_in_range() {
        let mut random = Random::new(7);
        for _ in 0..200 {
            assert!(pile(&mut random).arbiter(4).is_ok());
        }
    }

    /// What is proved of the checker holds of the model: easing is never late, and after every change every placed task
    /// has a fixed point within its limit, which is told.
    #[test]
    fn histories_keep_their_promises() {
        let mut random = Random::new(8);
        let mut eased = 0;
        for _ in 0..150 {
            let (tables, allocation) = timely(&mut random);
            let arbiter = pile(&mut random).arbiter(tables.cores).unwrap();
            let list = history(&mut random, &tables, &*arbiter, Some(allocation), 20);
            let (_, log) = rehearse(&file::write(&tables), &*arbiter, &list).unwrap();
            let mut plan = Plan::of_tables(tables);
            for (change, outcome) in list.iter().zip(&log) {
                let eases = plan.eases(change);
                let verdict = plan.change(&*arbiter, change);
                assert_eq!(verdict, outcome.verdict);
                let late = verdict.is_err_and(|refusal| refusal.number == LATE);
                assert!(!(eases && late));
                eased += usize::from(eases && verdict.is_ok());
                for (i, &time) in outcome.times.iter().enumerate() {
                    match plan.core_of_task(i) {
                        None => assert_eq!(time, 0),
                        Some(p) => {
                            assert!(0 < time && time <= plan.limit(i));
                            assert_eq!(plan.demand(&*arbiter, i, p, time), time);
                        }
                    }
                }
            }
        }
        assert!(eased >= 100);
    }

    #[test]
    fn texts_say_their_changes() {
        let mut random = Random::new(9);
        let mut unread = 0;
        for _ in 0..200 {
            let (tables, allocation) = timely(&mut random);
            let list = history(&mut random, &tables, &station(tables.cores), Some(allocation), 12);
            let script = changes::read(&changes_text(&mut random, &list));
            assert_eq!(script.unread, None);
            assert_eq!(script.steps.into_iter().map(|(_, change)| change).collect::<Vec<_>>(), list);
            unread += usize::from(changes::read(&damaged_changes_text(&mut random, &list)).unread.is_some());
        }
        assert!(unread >= 80, "{unread}");
    }
}
