//! Scripts: calls on one plan, one after the other.

use crate::piles::Pile;
use model::arbiter::{Question, Sharing};
use model::Change;

/// One call or question; lengths are those of the buffer that is lent to it.
#[derive(Clone, Debug, PartialEq, Eq)]
pub enum Step {
    Change(Change),
    Times(usize),
    Windows(usize),
    Listing(usize),
    Trial {
        partition: usize,
        core: usize,
        length: usize,
    },
    /// a question to the arbiter itself; the bits of the byte say which pairs share, from 0-1 to 2-3
    Ask {
        core: usize,
        sharing: u8,
        t: u64,
        own: u64,
        others: [u64; 4],
    },
}

/// The pairs of cores in the order of the bits that stand for them.
pub const PAIRS: [(usize, usize); 6] = [(0, 1), (0, 2), (0, 3), (1, 2), (1, 3), (2, 3)];

/// The longest buffers that a script can lend: entries of times or windows, and bytes of a listing.
pub const MOST_TIMES: usize = 80;
pub const MOST_BYTES: usize = 3_700;

/// What every entry of a buffer is before a question.
pub const MARK: u64 = 170;

/// The question that a step asks, as the model has it.
pub fn question(core: usize, sharing: u8, t: u64, own: u64, others: [u64; 4]) -> Question {
    let pairs: Vec<(usize, usize)> = (0..6).filter(|k| sharing >> k & 1 == 1).map(|k| PAIRS[k]).collect();
    Question { core, t: t.into(), own: own.into(), others: others.map(u128::from), sharing: Sharing::of(&pairs) }
}

fn add(bytes: &mut Vec<u8>, numbers: impl IntoIterator<Item = u64>) {
    bytes.extend(numbers.into_iter().flat_map(u64::to_be_bytes));
}

impl Step {
    fn write(&self, bytes: &mut Vec<u8>) {
        match self {
            Step::Change(Change::Adopt { allocation }) => {
                bytes.extend([1, allocation.len() as u8]);
                bytes.extend(allocation);
            }
            Step::Change(Change::Place { partition, core }) => {
                bytes.push(2);
                add(bytes, [*partition as u64, *core as u64]);
            }
            Step::Change(Change::Withdraw { partition }) => {
                bytes.push(3);
                add(bytes, [*partition as u64]);
            }
            Step::Change(Change::Retime { task, numbers }) => {
                bytes.push(4);
                add(bytes, [*task as u64]);
                add(bytes, numbers.iter().map(|&n| u64::try_from(n).expect("a number below 2^64")));
            }
            Step::Times(length) => bytes.extend([5, *length as u8]),
            Step::Windows(length) => bytes.extend([6, *length as u8]),
            Step::Listing(length) => {
                bytes.push(7);
                add(bytes, [*length as u64]);
            }
            Step::Trial { partition, core, length } => {
                bytes.push(8);
                add(bytes, [*partition as u64, *core as u64]);
                bytes.push(*length as u8);
            }
            Step::Ask { core, sharing, t, own, others } => {
                bytes.extend([9, *core as u8, *sharing]);
                add(bytes, [*t, *own]);
                add(bytes, *others);
            }
        }
    }

    /// How many numbers it answers.
    pub fn answers(&self) -> usize {
        match self {
            Step::Times(length) | Step::Windows(length) | Step::Listing(length) | Step::Trial { length, .. } => {
                2 + length
            }
            Step::Change(_) => 2,
            Step::Ask { .. } => 1,
        }
    }
}

/// The bytes of a script.
pub fn bytes(pile: &Pile, steps: &[Step]) -> Vec<u8> {
    let mut bytes = pile.bytes();
    steps.iter().for_each(|step| step.write(&mut bytes));
    bytes
}

/// A length that all answers of a script fit in.
pub fn answers(steps: &[Step]) -> usize {
    8 + steps.iter().map(Step::answers).sum::<usize>()
}
