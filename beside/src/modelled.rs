//! The same answers by the model, as the same numbers.

use crate::piles::Pile;
use crate::proved::Answer;
use crate::script::{question, Step, MARK};
use model::arbiter::Arbiter;
use model::{Plan, Refusal, Tables};

fn number(n: u128) -> u64 {
    u64::try_from(n).expect("a number below 2^64")
}

/// The two numbers of a result.
pub fn answer(result: Result<usize, Refusal>) -> Answer {
    match result {
        Ok(tells) => Answer { number: 0, tells },
        Err(Refusal { number: refused, tells }) => Answer { number: refused as usize, tells: number(tells) as usize },
    }
}

/// Writes a text into the front of a buffer.
pub fn written(text: &[u8], out: &mut [u8]) -> Answer {
    answer(model::plan::fill(text, out).map(|()| text.len()))
}

/// All that tables say but the names.
fn numbers(tables: &Tables) -> Vec<u64> {
    let mut all = vec![tables.cores as u64, tables.partitions.len() as u64];
    all.extend(tables.partitions.iter().map(|partition| number(partition.period)));
    all.push(tables.tasks.len() as u64);
    for task in &tables.tasks {
        all.push(task.partition as u64);
        all.extend(model::tables::numbers(task).map(number));
    }
    all.push(tables.links.len() as u64);
    all.extend(tables.links.iter().flat_map(|&(a, b)| [a as u64, b as u64]));
    all
}

/// Reads a table file, and gives all that it says but the names as numbers.
pub fn tables(file: &[u8]) -> (Answer, Vec<u64>) {
    match model::read_tables(file) {
        Ok(tables) => {
            let all = numbers(&tables);
            (answer(Ok(all.len())), all)
        }
        Err(refusal) => (answer(Err(refusal)), vec![]),
    }
}

fn add(out: &mut Vec<u64>, result: Result<usize, Refusal>) {
    let answer = answer(result);
    out.extend([answer.number as u64, answer.tells as u64]);
}

/// Asks with a buffer that is filled with marks, and adds the answer and the whole buffer.
fn add_filled(out: &mut Vec<u64>, length: usize, ask: impl FnOnce(&mut [u128]) -> Result<(), Refusal>) {
    let mut buffer = vec![u128::from(MARK); length];
    add(out, ask(&mut buffer).map(|()| 0));
    out.extend(buffer.into_iter().map(number));
}

/// Makes one call, and adds what it answers.
pub fn step(plan: &mut Plan, arbiter: &dyn Arbiter, step: &Step, out: &mut Vec<u64>) {
    match step {
        Step::Change(change) => add(out, plan.change(arbiter, change).map(|()| 0)),
        Step::Times(length) => add_filled(out, *length, |buffer| plan.times(arbiter, buffer)),
        Step::Windows(length) => add_filled(out, *length, |buffer| plan.windows(arbiter, buffer)),
        Step::Listing(length) => {
            let mut buffer = vec![MARK as u8; *length];
            add(out, plan.listing(arbiter, &mut buffer));
            out.extend(buffer.into_iter().map(u64::from));
        }
        Step::Trial { partition, core, length } => {
            add_filled(out, *length, |buffer| plan.trial(arbiter, *partition, *core, buffer))
        }
        Step::Ask { core, sharing, t, own, others } => {
            out.push(number(arbiter.bound(&question(*core, *sharing, *t, *own, *others))))
        }
    }
}

/// Plays a script on the plan of a table file, and gives what each call answers as numbers.
pub fn play(file: &[u8], pile: &Pile, steps: &[Step]) -> Vec<u64> {
    let mut out = vec![];
    let born = pile.arbiter().and_then(|arbiter| Ok((arbiter, Plan::birth(file)?)));
    match born {
        Err(refusal) => add(&mut out, Err(refusal)),
        Ok((arbiter, mut plan)) => {
            add(&mut out, Ok(0));
            steps.iter().for_each(|next| step(&mut plan, &*arbiter, next, &mut out));
        }
    }
    out
}
