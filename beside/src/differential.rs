//! Both sides on the same inputs: files, allocations and histories, every number and every byte compared.

use crate::compare::{same, same_list, Given};
use crate::modelled;
use crate::piles::Pile;
use crate::script::{answers, bytes, Step, MARK, MOST_BYTES, MOST_TIMES};
use crate::{plain, proved};
use model::arbiter::Arbiter;
use model::file::{self, Writer};
use model::generate::{self, Random};
use model::tables::{numbers, Task, LEAST_PERIOD, MOST_REQUESTS, MOST_TIME};
use model::{Plan, Tables};
use std::collections::BTreeMap;

/// What was compared.
#[derive(Default)]
pub struct Counts {
    pub files: usize,
    pub checks: usize,
    pub histories: usize,
    pub steps: usize,
    pub asked: usize,
    pub numbers: usize,
    pub bytes: usize,
    /// how often each answer was met, 0 for accepted
    pub met: BTreeMap<usize, usize>,
}

impl Counts {
    fn meet(&mut self, number: usize) {
        *self.met.entry(number).or_default() += 1;
    }
}

/// A run of comparisons that a seed determines.
pub struct Run {
    random: Random,
    pub counts: Counts,
}

impl Run {
    pub fn new(seed: u64) -> Run {
        Run { random: Random::new(seed), counts: Counts::default() }
    }

    /// Reads a file.
    pub fn file(&mut self, file: &[u8]) {
        let given = Given { file, ..Given::default() };
        let (answer, said) = proved::tables(file);
        let (expected, model_said) = modelled::tables(file);
        same("tables of a file", &given, &answer, &expected);
        same_list("tables of a file", &given, &said, &model_said);
        let alone = proved::read(file);
        let read = if expected.number == 0 { (0, 0) } else { (expected.number, expected.tells) };
        same("reading alone", &given, &(alone.number, alone.tells), &read);
        same("plain reading", &given, &plain::read(file).err().unwrap_or((0, 0)), &read);
        self.counts.files += 1;
        self.counts.numbers += said.len() + 2;
        self.counts.meet(answer.number);
    }

    /// Reads a file cut after each byte, with each single bit turned, and with a byte behind it.
    pub fn damaged(&mut self, file: &[u8]) {
        for end in 0..=file.len() {
            self.file(&file[..end]);
        }
        let mut turned = file.to_vec();
        for bit in 0..8 * file.len() {
            turned[bit / 8] ^= 128 >> (bit % 8);
            self.file(&turned);
            turned[bit / 8] ^= 128 >> (bit % 8);
        }
        for byte in [0, 65, 255] {
            self.file(&[file, &[byte]].concat());
        }
    }

    /// Judges a file and an allocation, with buffers of lengths near the needed one.
    pub fn check(&mut self, file: &[u8], allocation: &[u8]) {
        let given = Given { file, allocation, script: None };
        let text = model::check_text(file, allocation);
        same_list("plain check", &given, plain::check_text(file, allocation).as_bytes(), &text);
        let needed = text.len();
        let shorter = self.random.below(needed + 1);
        let near = needed.saturating_sub(2)..=needed + 2;
        for length in near.chain([0, shorter, MOST_BYTES]) {
            let mut out = vec![MARK as u8; length];
            let mut expected = out.clone();
            let answer = proved::check(file, allocation, &mut out);
            let wanted = modelled::written(&text, &mut expected);
            same("check", &given, &answer, &wanted);
            same_list("the text of check", &given, &out, &expected);
            self.counts.bytes += length;
            self.counts.meet(answer.number);
        }
        self.counts.checks += 1;
        self.counts.meet(refusal_in(&text));
    }

    /// Plays a history.
    pub fn history(&mut self, file: &[u8], pile: &Pile, steps: &[Step]) {
        let given = Given { file, allocation: &[], script: Some((pile, steps)) };
        let answered = proved::play(file, &bytes(pile, steps), answers(steps));
        same_list("a history", &given, &answered, &modelled::play(file, pile, steps));
        self.counts.histories += 1;
        self.counts.numbers += answered.len();
        self.counts.meet(answered[0] as usize);
        if answered[0] == 0 {
            let mut at = 2;
            for step in steps {
                match step {
                    Step::Ask { .. } => self.counts.asked += 1,
                    _ => self.counts.meet(answered[at] as usize),
                }
                at += step.answers();
            }
            assert_eq!(at, answered.len(), "every step of a history is answered");
            self.counts.steps += steps.len();
        }
    }
}

/// The number of the refusal that check prints, or 0.
fn refusal_in(text: &[u8]) -> usize {
    let text = std::str::from_utf8(text).expect("a text");
    let number = text.strip_prefix("refused ").and_then(|rest| rest.split(' ').next());
    number.map_or(0, |number| number.parse().expect("a number"))
}

/// Random inputs.
impl Run {
    /// Files of every shape, valid ones and damaged ones.
    pub fn random_files(&mut self, count: usize) {
        for _ in 0..count {
            let random = &mut self.random;
            let file = match random.below(4) {
                0 => generate::valid_file(random),
                1 => {
                    let whole = generate::valid_file(random);
                    let once = generate::bit_turned(random, &whole);
                    generate::bit_turned(random, &once)
                }
                _ => generate::damaged_file(random),
            };
            self.file(&file);
        }
    }

    /// Files and allocations, as the programs are given them.
    pub fn random_checks(&mut self, count: usize) {
        for _ in 0..count {
            let input = generate::input(self.random.bits());
            self.check(&input.tab, &input.alloc);
        }
    }

    /// Histories under piles of every kind, with questions between the changes.
    pub fn random_histories(&mut self, count: usize) {
        for _ in 0..count {
            let (file, pile, steps) = history(&mut self.random);
            self.history(&file, &pile, &steps);
        }
    }

    /// Questions to the arbiters themselves, also such as no plan asks.
    pub fn random_asks(&mut self, count: usize) {
        let file = [0x80, 0, 0];
        for _ in 0..count {
            let pile = Pile::random(&mut self.random, 4);
            let steps: Vec<Step> = (0..200).map(|_| ask(&mut self.random)).collect();
            self.history(&file, &pile, &steps);
        }
    }
}

/// A time or a count, often at or beside the greatest that is reckoned with.
fn amount(random: &mut Random, most: u64) -> u64 {
    match random.below(8) {
        0 => random.pick(&[0, 1, most - 1, most]),
        1 if random.once_in(4) => random.pick(&[most + 1, 2 * most, u64::MAX]),
        _ => (random.bits() >> random.below(64)) % (most + 1),
    }
}

fn ask(random: &mut Random) -> Step {
    let most = MOST_TIME as u64;
    Step::Ask {
        core: random.below(4),
        sharing: random.below(64) as u8,
        t: amount(random, most),
        own: amount(random, most / 10),
        others: [0; 4].map(|_: u64| amount(random, most / 10)),
    }
}

/// A length near the needed one.
fn near(random: &mut Random, needed: usize, most: usize) -> usize {
    let any = random.below(most + 1);
    let lengths = [needed, needed, needed + 1, needed + 2, needed.saturating_sub(1), needed.saturating_sub(2), 0, any];
    random.pick(&lengths).min(most)
}

/// A question to a plan.
fn question(random: &mut Random, plan: &Plan, arbiter: &dyn Arbiter) -> Step {
    let (tasks, partitions, cores) = (plan.tables.tasks.len(), plan.core.len(), plan.tables.cores);
    match random.below(6) {
        0 | 1 => Step::Times(near(random, tasks, MOST_TIMES)),
        2 => Step::Windows(near(random, partitions, MOST_TIMES)),
        3 => {
            let needed = plan.listing_text(arbiter).len();
            Step::Listing(near(random, needed, MOST_BYTES))
        }
        _ => {
            let unplaced: Vec<usize> = (0..partitions).filter(|&k| plan.core[k].is_none()).collect();
            let partition = match random.below(6) {
                0 => random.pick(&[partitions, partitions + 1, usize::MAX]),
                1 => random.below(partitions + 1),
                _ if unplaced.is_empty() => random.below(partitions + 1),
                _ => random.pick(&unplaced),
            };
            let core = if random.once_in(8) { random.pick(&[cores, 4, usize::MAX]) } else { random.below(cores) };
            Step::Trial { partition, core, length: near(random, tasks, MOST_TIMES) }
        }
    }
}

/// A table file, a pile, and a history for them.
fn history(random: &mut Random) -> (Vec<u8>, Pile, Vec<Step>) {
    let (tables, first) = match random.below(8) {
        0 => {
            let shape = random.pick(&generate::SHAPES);
            (generate::tables(random, shape), None)
        }
        _ => {
            let (tables, allocation) = generate::timely(random);
            (tables, Some(allocation))
        }
    };
    let pile = Pile::random(random, tables.cores);
    let file = match random.once_in(40) {
        true => generate::damaged_file(random),
        false => file::write(&tables),
    };
    let mut steps = vec![];
    if let Ok(arbiter) = pile.arbiter() {
        let length = random.pick(&[1, 5, 10, 20, 40]);
        let mut plan = Plan::of_tables(tables.clone());
        for change in generate::history(random, &tables, &*arbiter, first, length) {
            let _ = plan.change(&*arbiter, &change);
            steps.push(Step::Change(change));
            if random.once_in(2) {
                steps.push(question(random, &plan, &*arbiter));
            }
        }
        steps.extend(lengths(&plan, &*arbiter));
    }
    (file, pile, steps)
}

/// The questions with buffers of every length near the needed one.
fn lengths(plan: &Plan, arbiter: &dyn Arbiter) -> Vec<Step> {
    let around = |needed: usize| needed.saturating_sub(2)..=needed + 2;
    let mut steps: Vec<Step> = around(plan.tables.tasks.len()).map(Step::Times).collect();
    steps.extend(around(plan.core.len()).map(Step::Windows));
    steps.extend(around(plan.listing_text(arbiter).len()).map(Step::Listing));
    steps
}

/// Inputs with one thing out of the ordinary.
impl Run {
    /// Every field of a file at and beside each end of its range, and at the ends of its bits.
    pub fn fields(&mut self) {
        let (tables, allocation) = generate::timely_of(&mut self.random, 3, 5, 8);
        self.counts_in_header(&tables, &allocation);
        let mut turned: Vec<Tables> = vec![];
        let mut with = |change: &dyn Fn(&mut Tables)| {
            let mut other = tables.clone();
            change(&mut other);
            turned.push(other);
        };
        for k in 0..tables.partitions.len() {
            for period in ends(LEAST_PERIOD, MOST_TIME, 44) {
                with(&|other| other.partitions[k].period = period);
            }
            for name in names() {
                with(&|other| other.partitions[k].name = name.clone());
            }
        }
        for i in 0..tables.tasks.len() {
            for (k, number) in (0..10).flat_map(|k| number_ends(k).into_iter().map(move |number| (k, number))) {
                with(&|other| set(&mut other.tasks[i], k, number));
            }
            for partition in 0..16 {
                with(&|other| other.tasks[i].partition = partition);
            }
            for name in names() {
                with(&|other| other.tasks[i].name = name.clone());
            }
        }
        for link in (0..16).flat_map(|a| (0..16).map(move |b| (a, b))) {
            for k in 0..=tables.links.len() {
                with(&|other| other.links.insert(k, link));
            }
        }
        for other in turned {
            let file = file::write(&other);
            self.file(&file);
            self.check(&file, &allocation);
        }
    }

    /// Every number that a field of the header can hold.
    fn counts_in_header(&mut self, tables: &Tables, allocation: &[u8]) {
        let whole = file::write(tables);
        let said = [tables.cores, tables.partitions.len(), tables.tasks.len(), tables.links.len(), 0];
        for (k, width) in [3, 5, 7, 7, 2].into_iter().enumerate() {
            for number in 0..1 << width {
                let mut header = Writer::default();
                for (j, width) in [3, 5, 7, 7, 2].into_iter().enumerate() {
                    header.field(if j == k { number } else { said[j] as u128 }, width);
                }
                let file = [&header.bytes(), &whole[file::HEADER_BYTES..]].concat();
                self.file(&file);
                self.check(&file, allocation);
            }
        }
    }

    /// As many tasks of one partition as it may have, and one more; the largest numbers of rows.
    pub fn crowds(&mut self) {
        let (mut tables, allocation) = generate::timely_of(&mut self.random, 2, 3, 3);
        for count in [15, 16, 17, 18, 33, 64] {
            let one = Task { partition: 1, ..tables.tasks[0].clone() };
            tables.tasks = vec![one; count];
            let file = file::write(&tables);
            self.file(&file);
            self.check(&file, &allocation);
        }
        for shape in [generate::Shape::Full, generate::Shape::Many] {
            let tables = generate::tables(&mut self.random, shape);
            let file = file::write(&tables);
            self.file(&file);
            for core in [0, tables.cores as u8 - 1, 255] {
                self.check(&file, &vec![core; tables.partitions.len()]);
            }
        }
    }

    /// Allocations of every length and with every entry.
    pub fn allocations(&mut self) {
        let (tables, allocation) = generate::timely_of(&mut self.random, 3, 6, 12);
        let file = file::write(&tables);
        for length in 0..40 {
            let mut other = allocation.clone();
            other.resize(length, 0);
            self.check(&file, &other);
        }
        for k in 0..allocation.len() {
            for entry in 0..=255 {
                let mut other = allocation.clone();
                other[k] = entry;
                self.check(&file, &other);
            }
        }
    }
}

/// Numbers at and beside each end of a range, and at the ends of the bits.
fn ends(least: u128, most: u128, width: u32) -> Vec<u128> {
    vec![0, least.saturating_sub(1), least, least + 1, most - 1, most, most + 1, (1 << width) - 1]
}

fn number_ends(k: usize) -> Vec<u128> {
    match k {
        0 => ends(LEAST_PERIOD, MOST_TIME, 44),
        1..=5 => ends(1, MOST_TIME, 44),
        _ => ends(0, MOST_REQUESTS, 20),
    }
}

fn names() -> Vec<Vec<u8>> {
    let mut names = vec![vec![], vec![b'x'; 15]];
    for byte in [0, 32, 33, 126, 127, 255] {
        names.extend([vec![byte], vec![b'a', byte], vec![byte, b'a', b'b']]);
    }
    names
}

/// Sets one of the ten numbers of a task.
fn set(task: &mut Task, k: usize, number: u128) {
    let mut all = numbers(task);
    all[k] = number;
    let [period, deadline, c0, c1, c2, c3, h0, h1, h2, h3] = all;
    (task.period, task.deadline) = (period, deadline);
    (task.execution, task.requests) = ([c0, c1, c2, c3], [h0, h1, h2, h3]);
}
