//! Plans: which partition stands on which core, and whether every placed task is in time.

use crate::arbiter::{jobs, Arbiter, Question, Sharing};
use crate::file;
use crate::refusal::*;
use crate::tables::*;

/// The byte that stands for an unplaced partition in an allocation.
pub const UNPLACED: u8 = 255;

#[derive(Clone, Debug, PartialEq, Eq)]
pub struct Plan {
    pub tables: Tables,
    pub core: Vec<Option<usize>>,
}

/// The least t within the limit with f(t) = t, for an f that never falls and is never below `least`.
///
/// Every fixed point is at least `least`. If t is at most every fixed point, so is f(t), since f does not fall. So the
/// steps never pass the least fixed point, and they rise until they meet it or pass the limit.
pub fn least_fixed_point(f: impl Fn(u128) -> u128, least: u128, limit: u128) -> Option<u128> {
    let mut t = least;
    while t <= limit {
        let next = f(t);
        assert!(next >= t, "f fell");
        if next == t {
            return Some(t);
        }
        t = next;
    }
    None
}

impl Plan {
    /// A plan with these tables and nothing placed.
    pub fn of_tables(tables: Tables) -> Plan {
        let core = vec![None; tables.partitions.len()];
        Plan { tables, core }
    }

    /// A plan is born from a table file with nothing placed.
    pub fn birth(table_file: &[u8]) -> Result<Plan, Refusal> {
        Ok(Plan::of_tables(file::read(table_file)?))
    }

    pub fn core_of_task(&self, i: usize) -> Option<usize> {
        self.core[self.tables.tasks[i].partition]
    }

    /// The least of deadline, period of the partition and period.
    pub fn limit(&self, i: usize) -> u128 {
        let task = &self.tables.tasks[i];
        task.deadline.min(self.tables.partitions[task.partition].period).min(task.period)
    }

    /// The tasks of the same partition with higher priority.
    pub fn higher(&self, i: usize) -> Vec<usize> {
        (0..i).filter(|&j| self.tables.tasks[j].partition == self.tables.tasks[i].partition).collect()
    }

    pub fn sharing(&self) -> Sharing {
        let mut sharing = Sharing::default();
        for &(a, b) in &self.tables.links {
            if let (Some(p), Some(q)) = (self.core[a], self.core[b]) {
                if p != q {
                    sharing.add(p, q);
                }
            }
        }
        sharing
    }

    /// The question that task i, placed on core p, puts for t.
    pub fn question(&self, i: usize, p: usize, t: u128) -> Question {
        let tasks = &self.tables.tasks;
        let own = tasks[i].requests[p]
            + self.higher(i).iter().map(|&j| jobs(t, tasks[j].period) * tasks[j].requests[p]).sum::<u128>();
        let mut others = [0; 4];
        for (j, task) in tasks.iter().enumerate() {
            if let Some(q) = self.core_of_task(j) {
                if q != p {
                    others[q] += jobs(t, task.period) * task.requests[q];
                }
            }
        }
        Question { core: p, t, own, others, sharing: self.sharing() }
    }

    /// The demand f(t) of task i, placed on core p.
    pub fn demand(&self, arbiter: &dyn Arbiter, i: usize, p: usize, t: u128) -> u128 {
        let tasks = &self.tables.tasks;
        tasks[i].execution[p]
            + self.higher(i).iter().map(|&j| jobs(t, tasks[j].period) * tasks[j].execution[p]).sum::<u128>()
            + arbiter.bound(&self.question(i, p, t))
    }

    /// The time of task i, if it is placed and has one.
    pub fn time(&self, arbiter: &dyn Arbiter, i: usize) -> Option<u128> {
        let p = self.core_of_task(i)?;
        let least = self.tables.tasks[i].execution[p];
        least_fixed_point(|t| self.demand(arbiter, i, p, t), least, self.limit(i))
    }

    /// The first placed task in priority order without a time.
    pub fn first_late(&self, arbiter: &dyn Arbiter) -> Option<usize> {
        (0..self.tables.tasks.len()).find(|&i| self.core_of_task(i).is_some() && self.time(arbiter, i).is_none())
    }

    /// Becomes the changed plan if every placed task of it is in time.
    fn admit(&mut self, arbiter: &dyn Arbiter, changed: Plan) -> Result<(), Refusal> {
        if let Some(i) = changed.first_late(arbiter) {
            return refuse(LATE, i);
        }
        *self = changed;
        Ok(())
    }

    /// The plan with this allocation, whether in time or not.
    pub fn allocated(&self, allocation: &[u8]) -> Result<Plan, Refusal> {
        if allocation.len() != self.core.len() {
            return refuse(ALLOCATION_LENGTH, allocation.len());
        }
        let names_a_core = |&byte: &u8| byte == UNPLACED || usize::from(byte) < self.tables.cores;
        if let Some(index) = allocation.iter().position(|byte| !names_a_core(byte)) {
            return refuse(NO_CORE, index);
        }
        let core = allocation.iter().map(|&byte| (byte != UNPLACED).then_some(usize::from(byte))).collect();
        Ok(Plan { tables: self.tables.clone(), core })
    }

    pub fn adopt(&mut self, arbiter: &dyn Arbiter, allocation: &[u8]) -> Result<(), Refusal> {
        let changed = self.allocated(allocation)?;
        self.admit(arbiter, changed)
    }

    pub fn place(&mut self, arbiter: &dyn Arbiter, partition: usize, core: usize) -> Result<(), Refusal> {
        if partition >= self.core.len() {
            return refuse(NO_PARTITION, partition);
        }
        if core >= self.tables.cores {
            return refuse(NO_CORE, core);
        }
        let mut changed = self.clone();
        changed.core[partition] = Some(core);
        self.admit(arbiter, changed)
    }

    pub fn withdraw(&mut self, arbiter: &dyn Arbiter, partition: usize) -> Result<(), Refusal> {
        if partition >= self.core.len() {
            return refuse(NO_PARTITION, partition);
        }
        if self.core[partition].is_none() {
            return refuse(NOT_PLACED, partition);
        }
        let mut changed = self.clone();
        changed.core[partition] = None;
        self.admit(arbiter, changed)
    }

    /// Replaces period, deadline, four execution times and four counts of requests of a task.
    pub fn retime(&mut self, arbiter: &dyn Arbiter, i: usize, numbers: [u128; 10]) -> Result<(), Refusal> {
        if i >= self.tables.tasks.len() {
            return refuse(NO_TASK, i);
        }
        if let Some(position) = first_out_of_range(&numbers) {
            return refuse(NUMBER_RANGE, position);
        }
        let [period, deadline, c0, c1, c2, c3, h0, h1, h2, h3] = numbers;
        let mut changed = self.clone();
        let task = &mut changed.tables.tasks[i];
        task.period = period;
        task.deadline = deadline;
        task.execution = [c0, c1, c2, c3];
        task.requests = [h0, h1, h2, h3];
        self.admit(arbiter, changed)
    }

    /// The time of every task, 0 for one without.
    pub fn all_times(&self, arbiter: &dyn Arbiter) -> Vec<u128> {
        (0..self.tables.tasks.len()).map(|i| self.time(arbiter, i).unwrap_or(0)).collect()
    }

    /// The window of every partition, 0 for one with a task without time.
    pub fn all_windows(&self, arbiter: &dyn Arbiter) -> Vec<u128> {
        let times = self.all_times(arbiter);
        (0..self.core.len())
            .map(|k| {
                let of_partition: Vec<u128> =
                    (0..times.len()).filter(|&i| self.tables.tasks[i].partition == k).map(|i| times[i]).collect();
                if of_partition.contains(&0) {
                    0
                } else {
                    of_partition.into_iter().max().unwrap_or(0)
                }
            })
            .collect()
    }

    pub fn times(&self, arbiter: &dyn Arbiter, buffer: &mut [u128]) -> Result<(), Refusal> {
        fill(&self.all_times(arbiter), buffer)
    }

    pub fn windows(&self, arbiter: &dyn Arbiter, buffer: &mut [u128]) -> Result<(), Refusal> {
        fill(&self.all_windows(arbiter), buffer)
    }

    /// What place followed by times would give, for an unplaced partition.
    pub fn trial(
        &self,
        arbiter: &dyn Arbiter,
        partition: usize,
        core: usize,
        buffer: &mut [u128],
    ) -> Result<(), Refusal> {
        if partition >= self.core.len() {
            return refuse(NO_PARTITION, partition);
        }
        if core >= self.tables.cores {
            return refuse(NO_CORE, core);
        }
        if self.core[partition].is_some() {
            return refuse(PLACED, partition);
        }
        if buffer.len() < self.tables.tasks.len() {
            return refuse(SHORT_BUFFER, self.tables.tasks.len());
        }
        let mut changed = self.clone();
        changed.place(arbiter, partition, core)?;
        changed.times(arbiter, buffer)
    }

    /// The same with a buffer of just the length needed.
    pub fn trial_times(&self, arbiter: &dyn Arbiter, partition: usize, core: usize) -> Result<Vec<u128>, Refusal> {
        let mut times = vec![0; self.tables.tasks.len()];
        self.trial(arbiter, partition, core, &mut times)?;
        Ok(times)
    }

    /// The text of the listing: number and time of every task, one line each.
    pub fn listing_text(&self, arbiter: &dyn Arbiter) -> Vec<u8> {
        let lines = self.all_times(arbiter).into_iter().enumerate().map(|(i, time)| format!("{i} {time}\n"));
        lines.collect::<String>().into_bytes()
    }

    pub fn listing(&self, arbiter: &dyn Arbiter, buffer: &mut [u8]) -> Result<usize, Refusal> {
        let text = self.listing_text(arbiter);
        fill(&text, buffer)?;
        Ok(text.len())
    }
}

/// Fills the first entries of a buffer; the rest keeps its contents.
pub fn fill<A: Copy>(entries: &[A], buffer: &mut [A]) -> Result<(), Refusal> {
    if buffer.len() < entries.len() {
        return refuse(SHORT_BUFFER, entries.len());
    }
    buffer[..entries.len()].copy_from_slice(entries);
    Ok(())
}
