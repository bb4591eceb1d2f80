//! What check does, once more: plain Rust for speed, to measure beside. Numbers of 64 bits, lists made once for each
//! judgement, arbiters without boxes. The differential tests hold it equal to the model.

/// A refusal: its number, and what it tells.
pub type Refused = (usize, usize);

const MOST_TIME: u64 = 10_000_000_000_000;
const LEAST_PERIOD: u64 = 1_000_000_000;
const MOST_REQUESTS: u64 = 1_000_000;
const MOST_COUNT: u64 = 1_000_000_000_000;
const CEILING: u64 = 100_000_000_000_000;
const UNPLACED: u8 = 255;

#[derive(Clone, Copy)]
pub struct Task {
    pub partition: usize,
    pub period: u64,
    pub deadline: u64,
    pub execution: [u64; 4],
    pub requests: [u64; 4],
}

/// All that a table file says but the names.
pub struct Tables {
    pub cores: usize,
    pub periods: Vec<u64>,
    pub tasks: Vec<Task>,
    pub links: Vec<(usize, usize)>,
}

/// The number in some bits of a row, the most significant first. At most 56 bits.
fn field(row: &[u8], from: usize, width: usize) -> u64 {
    let mut n = 0;
    for &byte in &row[from / 8..(from + width).div_ceil(8)] {
        n = n << 8 | u64::from(byte);
    }
    let behind = (8 - (from + width) % 8) % 8;
    n >> behind & ((1 << width) - 1)
}

/// A file that is read from its front on.
struct Rows<'a> {
    file: &'a [u8],
    at: usize,
}

impl<'a> Rows<'a> {
    fn row(&self, width: usize) -> Result<&'a [u8], Refused> {
        self.file.get(self.at..self.at + width).ok_or((1, self.at))
    }

    /// Checks the name behind the fixed part, and goes on to the next row.
    fn pass_name(&mut self, fixed: usize, length: usize) -> Result<(), Refused> {
        let end = self.at + fixed + length;
        let name = self.file.get(self.at + fixed..end).ok_or((1, self.at))?;
        if length == 0 || !name.iter().all(|byte| (33..=126).contains(byte)) {
            return Err((3, self.at));
        }
        self.at = end;
        Ok(())
    }
}

fn is_period(n: u64) -> bool {
    (LEAST_PERIOD..=MOST_TIME).contains(&n)
}

fn is_time(n: u64) -> bool {
    (1..=MOST_TIME).contains(&n)
}

fn task_of(row: &[u8]) -> Task {
    let time = |k: usize| field(row, 4 + 44 * k, 44);
    let count = |k: usize| field(row, 268 + 20 * k, 20);
    Task {
        partition: field(row, 0, 4) as usize,
        period: time(0),
        deadline: time(1),
        execution: [time(2), time(3), time(4), time(5)],
        requests: [count(0), count(1), count(2), count(3)],
    }
}

/// Reads a table file.
pub fn read(file: &[u8]) -> Result<Tables, Refused> {
    let mut rows = Rows { file, at: 0 };
    let header = rows.row(3)?;
    let cores = field(header, 0, 3) as usize;
    let counts = [field(header, 3, 5) as usize, field(header, 8, 7) as usize, field(header, 15, 7) as usize];
    if !(1..=4).contains(&cores) || counts[0] > 16 || counts[1] > 64 || counts[2] > 120 || field(header, 22, 2) != 0 {
        return Err((2, 0));
    }
    rows.at = 3;

    let mut periods = Vec::with_capacity(counts[0]);
    for _ in 0..counts[0] {
        let row = rows.row(6)?;
        let period = field(row, 0, 44);
        if !is_period(period) {
            return Err((2, rows.at));
        }
        rows.pass_name(6, field(row, 44, 4) as usize)?;
        periods.push(period);
    }

    let mut tasks: Vec<Task> = Vec::with_capacity(counts[1]);
    let mut members = [0; 16];
    for _ in 0..counts[1] {
        let row = rows.row(44)?;
        let task = task_of(row);
        if !is_period(task.period)
            || !is_time(task.deadline)
            || !task.execution.iter().all(|&c| is_time(c))
            || !task.requests.iter().all(|&h| h <= MOST_REQUESTS)
        {
            return Err((2, rows.at));
        }
        if task.partition >= counts[0] {
            return Err((4, rows.at));
        }
        if members[task.partition] == 16 {
            return Err((7, rows.at));
        }
        members[task.partition] += 1;
        rows.pass_name(44, field(row, 348, 4) as usize)?;
        tasks.push(task);
    }

    let mut links = Vec::with_capacity(counts[2]);
    for _ in 0..counts[2] {
        let byte = rows.row(1)?[0];
        let link = (usize::from(byte >> 4), usize::from(byte & 15));
        if link.0 >= counts[0] || link.1 >= counts[0] {
            return Err((4, rows.at));
        }
        if link.0 >= link.1 || links.last().is_some_and(|&last| last >= link) {
            return Err((5, rows.at));
        }
        links.push(link);
        rows.at += 1;
    }

    if rows.at < file.len() {
        return Err((6, rows.at));
    }
    Ok(Tables { cores, periods, tasks, links })
}

/// Which cores share.
pub type Sharing = [[bool; 4]; 4];

pub struct Question<'a> {
    pub core: usize,
    pub t: u64,
    pub own: u64,
    pub others: [u64; 4],
    pub sharing: &'a Sharing,
}

impl Question<'_> {
    fn is_beyond(&self) -> bool {
        self.t > MOST_TIME || self.own > MOST_COUNT || self.others.iter().any(|&count| count > MOST_COUNT)
    }
}

pub trait Arbiter {
    fn bound(&self, question: &Question) -> u64;
}

pub struct RequestDriven {
    pub cores: usize,
    pub l: u64,
    pub conflict: u64,
    pub reorder: u64,
}

impl RequestDriven {
    fn inter(&self, p: usize, sharing: &Sharing) -> u64 {
        (0..self.cores).filter(|&q| q != p && !sharing[p][q]).count() as u64 * self.l
    }
}

impl Arbiter for RequestDriven {
    fn bound(&self, question: &Question) -> u64 {
        let (p, sharing) = (question.core, question.sharing);
        if p >= self.cores || question.is_beyond() {
            return CEILING;
        }
        let mut wait = self.inter(p, sharing) + self.reorder;
        for q in 0..self.cores {
            if sharing[p][q] {
                wait += self.conflict + self.inter(q, sharing);
            }
        }
        (question.own * wait).min(CEILING)
    }
}

pub struct JobDriven {
    pub cores: usize,
    pub l: u64,
    pub conflict: u64,
}

impl JobDriven {
    fn between(&self, p: usize, question: &Question) -> u64 {
        let apart = (0..self.cores).filter(|&q| q != p && !question.sharing[p][q]);
        apart.map(|q| question.others[q] * self.l).sum()
    }
}

impl Arbiter for JobDriven {
    fn bound(&self, question: &Question) -> u64 {
        let p = question.core;
        if p >= self.cores || question.is_beyond() {
            return CEILING;
        }
        let mut sum = self.between(p, question);
        for q in 0..self.cores {
            if question.sharing[p][q] {
                sum += question.others[q] * self.conflict + self.between(q, question);
            }
        }
        sum.min(CEILING)
    }
}

pub struct Lesser<P, Q>(pub P, pub Q);

impl<P: Arbiter, Q: Arbiter> Arbiter for Lesser<P, Q> {
    fn bound(&self, question: &Question) -> u64 {
        self.0.bound(question).min(self.1.bound(question))
    }
}

/// The pile of our station.
pub fn station(cores: usize) -> Lesser<RequestDriven, JobDriven> {
    let (l, conflict, reorder) = (48_750, 60_000, 5_000);
    Lesser(RequestDriven { cores, l, conflict, reorder }, JobDriven { cores, l, conflict })
}

/// A task as its demand counts: on the core of its partition.
struct Load {
    core: usize,
    period: u64,
    execution: u64,
    requests: u64,
}

/// Tables with an allocation, laid out for judging.
pub struct Judge<'a> {
    tables: &'a Tables,
    cores: Vec<Option<usize>>,
    sharing: Sharing,
    /// for each core the tasks on the others
    others: [Vec<Load>; 4],
}

/// The core that each entry of an allocation says.
pub fn placement(tables: &Tables, allocation: &[u8]) -> Result<Vec<Option<usize>>, Refused> {
    if allocation.len() != tables.periods.len() {
        return Err((13, allocation.len()));
    }
    if let Some(k) = allocation.iter().position(|&entry| entry != UNPLACED && usize::from(entry) >= tables.cores) {
        return Err((10, k));
    }
    Ok(allocation.iter().map(|&entry| (entry != UNPLACED).then_some(usize::from(entry))).collect())
}

impl<'a> Judge<'a> {
    pub fn new(tables: &'a Tables, cores: Vec<Option<usize>>) -> Judge<'a> {
        let mut sharing = [[false; 4]; 4];
        for &(a, b) in &tables.links {
            if let (Some(p), Some(q)) = (cores[a], cores[b]) {
                if p != q {
                    sharing[p][q] = true;
                    sharing[q][p] = true;
                }
            }
        }
        let mut others: [Vec<Load>; 4] = Default::default();
        for task in &tables.tasks {
            if let Some(core) = cores[task.partition] {
                for (p, loads) in others.iter_mut().enumerate() {
                    if p != core {
                        loads.push(load(task, core));
                    }
                }
            }
        }
        Judge { tables, cores, sharing, others }
    }

    /// The least fixed point of the demand of a task within its limit.
    fn time(&self, arbiter: &impl Arbiter, i: usize) -> Option<u64> {
        let tasks = &self.tables.tasks;
        let task = &tasks[i];
        let core = self.cores[task.partition]?;
        let own = load(task, core);
        let ahead: Vec<Load> = tasks[..i]
            .iter()
            .filter(|other| other.partition == task.partition)
            .map(|other| load(other, core))
            .collect();
        let limit = task.deadline.min(task.period).min(self.tables.periods[task.partition]);
        let mut t = own.execution;
        while t <= limit {
            let next = self.demand(arbiter, &own, &ahead, t);
            if next == t {
                return Some(t);
            }
            t = next;
        }
        None
    }

    fn demand(&self, arbiter: &impl Arbiter, task: &Load, ahead: &[Load], t: u64) -> u64 {
        let (mut execution, mut own) = (task.execution, task.requests);
        for load in ahead {
            let jobs = t.div_ceil(load.period);
            execution += jobs * load.execution;
            own += jobs * load.requests;
        }
        let mut others = [0; 4];
        for load in &self.others[task.core] {
            others[load.core] += t.div_ceil(load.period) * load.requests;
        }
        execution + arbiter.bound(&Question { core: task.core, t, own, others, sharing: &self.sharing })
    }

    /// The first placed task without a time.
    pub fn first_late(&self, arbiter: &impl Arbiter) -> Option<usize> {
        let tasks = &self.tables.tasks;
        (0..tasks.len()).find(|&i| self.cores[tasks[i].partition].is_some() && self.time(arbiter, i).is_none())
    }

    /// The time of each task, 0 for one without.
    pub fn times(&self, arbiter: &impl Arbiter) -> Vec<u64> {
        (0..self.tables.tasks.len()).map(|i| self.time(arbiter, i).unwrap_or(0)).collect()
    }
}

fn load(task: &Task, core: usize) -> Load {
    Load { core, period: task.period, execution: task.execution[core], requests: task.requests[core] }
}

/// The listing of the plan that adopted an allocation, or the refusal.
fn listing(file: &[u8], allocation: &[u8]) -> Result<String, Refused> {
    use std::fmt::Write;
    let tables = read(file)?;
    let arbiter = station(tables.cores);
    let judge = Judge::new(&tables, placement(&tables, allocation)?);
    if let Some(i) = judge.first_late(&arbiter) {
        return Err((15, i));
    }
    let mut text = String::with_capacity(1024);
    for (i, time) in judge.times(&arbiter).into_iter().enumerate() {
        writeln!(text, "{i} {time}").expect("text takes all");
    }
    Ok(text)
}

/// What check prints.
pub fn check_text(file: &[u8], allocation: &[u8]) -> String {
    match listing(file, allocation) {
        Ok(text) => text,
        Err((number, tells)) => format!("refused {number} at {tells}\n"),
    }
}
