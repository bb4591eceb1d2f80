//! A list of changes played from the birth of a plan.

use crate::arbiter::{station, Arbiter};
use crate::changes::{self, Change};
use crate::file;
use crate::plan::Plan;
use crate::refusal::Refusal;
use std::collections::BTreeMap;

/// What became of a change: accepted or why not, and the time of each task after it, 0 for one without.
#[derive(Clone, Debug, PartialEq, Eq)]
pub struct Outcome {
    pub verdict: Result<(), Refusal>,
    pub times: Vec<u128>,
}

impl Plan {
    /// Makes the call that a change stands for.
    pub fn change(&mut self, arbiter: &dyn Arbiter, change: &Change) -> Result<(), Refusal> {
        match change {
            Change::Adopt { allocation } => self.adopt(arbiter, allocation),
            Change::Place { partition, core } => self.place(arbiter, *partition, *core),
            Change::Withdraw { partition } => self.withdraw(arbiter, *partition),
            Change::Retime { task, numbers } => self.retime(arbiter, *task, *numbers),
        }
    }

    /// Whether a change is a retime of a task that raises none of its execution times and counts of requests and
    /// shortens neither its period nor its deadline.
    pub fn eases(&self, change: &Change) -> bool {
        let Change::Retime { task, numbers } = change else { return false };
        let Some(former) = self.tables.tasks.get(*task) else { return false };
        let former = crate::tables::numbers(former);
        (0..2).all(|k| former[k] <= numbers[k]) && (2..10).all(|k| numbers[k] <= former[k])
    }
}

/// Plays changes from the birth of a plan: the plan in the end, and what became of each.
pub fn rehearse(table_file: &[u8], arbiter: &dyn Arbiter, changes: &[Change]) -> Result<(Plan, Vec<Outcome>), Refusal> {
    let mut plan = Plan::birth(table_file)?;
    let mut log = vec![];
    for change in changes {
        let verdict = plan.change(arbiter, change);
        log.push(Outcome { verdict, times: plan.all_times(arbiter) });
    }
    Ok((plan, log))
}

/// What the program rehearse prints for a table file and a text of changes.
pub fn rehearse_text(table_file: &[u8], text: &[u8]) -> Vec<u8> {
    let cores = match file::read(table_file) {
        Ok(tables) => tables.cores,
        Err(Refusal { number, tells }) => return format!("refused {number} at {tells}\n").into_bytes(),
    };
    let arbiter = station(cores);
    let script = changes::read(text);
    let (lines, changes): (Vec<usize>, Vec<Change>) = script.steps.into_iter().unzip();
    let (plan, log) = rehearse(table_file, &arbiter, &changes).expect("the file is read");

    let mut out = String::new();
    let mut refused: BTreeMap<u32, usize> = BTreeMap::new();
    for (line, outcome) in lines.iter().zip(&log) {
        match outcome.verdict {
            Ok(()) => out += &format!("{line} accepted\n"),
            Err(Refusal { number, tells }) => {
                out += &format!("{line} refused {number} at {tells}\n");
                *refused.entry(number).or_default() += 1;
            }
        }
    }
    if let Some(line) = script.unread {
        out += &format!("{line} cannot be read\n");
    }
    let count: usize = refused.values().sum();
    out += &format!("played {}, accepted {}, refused {count}\n", log.len(), log.len() - count);
    for (number, times) in refused {
        out += &format!("refused {number}: {times} times\n");
    }
    [out.into_bytes(), plan.listing_text(&arbiter)].concat()
}

#[cfg(test)]
mod tests {
    use super::*;
    use crate::shipped::two_cores;

    fn printed(text: &str) -> String {
        String::from_utf8(rehearse_text(&file::write(&two_cores()), text.as_bytes())).unwrap()
    }

    #[test]
    fn a_damaged_file_is_told_and_nothing_else() {
        assert_eq!(rehearse_text(&[], b"adopt"), b"refused 1 at 0\n");
        assert_eq!(rehearse_text(&[0x20, 0, 0, 0], b"what is this"), b"refused 6 at 3\n");
    }

    #[test]
    fn nothing_played() {
        let nothing = "played 0, accepted 0, refused 0\n0 0\n1 0\n";
        assert_eq!(printed(""), nothing);
        assert_eq!(printed("# a quiet day\n\n"), nothing);
        assert_eq!(printed("\nadopt 0 1 \nadopt 0 1\n"), "2 cannot be read\n".to_string() + nothing);
        assert_eq!(rehearse_text(&[0x20, 0, 0], b"adopt"), b"1 accepted\nplayed 1, accepted 1, refused 0\n");
    }

    #[test]
    fn every_refusal_is_counted() {
        let ms = 1_000_000_000u64;
        let retime = |task: u64, period: u64, c: u64| {
            format!("retime {task} {period} {period} {c} {c} {c} {c} 1000 1000 1000 1000\n")
        };
        let text = [
            "place 2 0\n".to_string(),
            "# both\n".to_string(),
            "adopt 0 1\n".to_string(),
            "adopt 0 2\n".to_string(),
            "adopt 0\n".to_string(),
            "withdraw 1\n".to_string(),
            "withdraw 1\n".to_string(),
            "place 1 2\n".to_string(),
            retime(2, ms, 1),
            retime(0, ms - 1, 1),
            retime(0, 20 * ms, 20 * ms),
            "place 1 0\n".to_string(),
            retime(0, 20 * ms, 20 * ms + 1),
            "stop".to_string(),
        ]
        .concat();
        let said = "\
            1 refused 9 at 2\n\
            3 accepted\n\
            4 refused 10 at 1\n\
            5 refused 13 at 1\n\
            6 accepted\n\
            7 refused 12 at 1\n\
            8 refused 10 at 2\n\
            9 refused 11 at 2\n\
            10 refused 14 at 0\n\
            11 accepted\n\
            12 accepted\n\
            13 refused 15 at 0\n\
            14 cannot be read\n\
            played 12, accepted 4, refused 8\n\
            refused 9: 1 times\n\
            refused 10: 2 times\n\
            refused 11: 1 times\n\
            refused 12: 1 times\n\
            refused 13: 1 times\n\
            refused 14: 1 times\n\
            refused 15: 1 times\n\
            0 20000000000\n\
            1 1000000000\n";
        assert_eq!(printed(&text), said);
    }
}
