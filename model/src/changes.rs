//! A list of changes as text: reading it and writing it.
//!
//! ```text
//! # a line that is empty or begins with this sign is passed over
//! adopt E E ..                          (each E the number of a core, or - for unplaced)
//! place P C
//! withdraw P
//! retime K T D C C C C H H H H
//! ```

use crate::plan::UNPLACED;

/// At most so many bytes of the text are considered.
pub const MOST_CHANGES_BYTES: usize = 65_536;
/// At most so many changes are played.
pub const MOST_CHANGES: usize = 1_024;

/// One of the four calls that change a plan, with its arguments.
#[derive(Clone, Debug, PartialEq, Eq)]
pub enum Change {
    Adopt { allocation: Vec<u8> },
    Place { partition: usize, core: usize },
    Withdraw { partition: usize },
    Retime { task: usize, numbers: [u128; 10] },
}

/// The changes of a text, each with the number of its line from 1 on, and the line that cannot be read, if there is one.
#[derive(Clone, Debug, Default, PartialEq, Eq)]
pub struct Script {
    pub steps: Vec<(usize, Change)>,
    pub unread: Option<usize>,
}

/// A decimal number below 2^64.
fn number(word: &[u8]) -> Option<u128> {
    if word.is_empty() || !word.iter().all(u8::is_ascii_digit) {
        return None;
    }
    word.iter().try_fold(0u128, |n, digit| {
        let next = n * 10 + u128::from(digit - b'0');
        (next < 1 << 64).then_some(next)
    })
}

/// The number of a partition, a core or a task.
fn index(word: &[u8]) -> Option<usize> {
    number(word).map(|n| n as usize)
}

/// An entry of an allocation.
fn entry(word: &[u8]) -> Option<u8> {
    if word == b"-" {
        return Some(UNPLACED);
    }
    number(word).filter(|&n| n <= 255).map(|n| n as u8)
}

/// The change that a line stands for.
fn change(line: &[u8]) -> Option<Change> {
    let words: Vec<&[u8]> = line.split(|&byte| byte == b' ').collect();
    let (kind, arguments) = words.split_first()?;
    match (*kind, arguments) {
        (b"adopt", entries) => {
            let allocation = entries.iter().map(|word| entry(word)).collect::<Option<_>>()?;
            Some(Change::Adopt { allocation })
        }
        (b"place", [partition, core]) => Some(Change::Place { partition: index(partition)?, core: index(core)? }),
        (b"withdraw", [partition]) => Some(Change::Withdraw { partition: index(partition)? }),
        (b"retime", [task, numbers @ ..]) => {
            let numbers = numbers.iter().map(|word| number(word)).collect::<Option<Vec<u128>>>()?;
            Some(Change::Retime { task: index(task)?, numbers: numbers.try_into().ok()? })
        }
        _ => None,
    }
}

/// Reads a text; nothing is taken from the first line that cannot be read, nor from those below it.
pub fn read(text: &[u8]) -> Script {
    let seen = &text[..text.len().min(MOST_CHANGES_BYTES)];
    let mut script = Script::default();
    for (k, line) in seen.split(|&byte| byte == b'\n').enumerate() {
        if line.is_empty() || line[0] == b'#' {
            continue;
        }
        match change(line) {
            Some(change) if script.steps.len() < MOST_CHANGES => script.steps.push((k + 1, change)),
            _ => {
                script.unread = Some(k + 1);
                break;
            }
        }
    }
    script
}

/// The line of a change, with its end.
pub fn line(change: &Change) -> String {
    match change {
        Change::Adopt { allocation } => {
            let words = allocation.iter().map(|&byte| match byte {
                UNPLACED => " -".to_string(),
                core => format!(" {core}"),
            });
            format!("adopt{}\n", words.collect::<String>())
        }
        Change::Place { partition, core } => format!("place {partition} {core}\n"),
        Change::Withdraw { partition } => format!("withdraw {partition}\n"),
        Change::Retime { task, numbers } => {
            format!("retime {task}{}\n", numbers.iter().map(|n| format!(" {n}")).collect::<String>())
        }
    }
}

/// The text of a list of changes, one line for each.
pub fn write(changes: &[Change]) -> Vec<u8> {
    changes.iter().map(line).collect::<String>().into_bytes()
}

#[cfg(test)]
mod tests {
    use super::*;

    fn one(line: &str) -> Option<Change> {
        let script = read(line.as_bytes());
        match &script.steps[..] {
            [(1, change)] if script.unread.is_none() => Some(change.clone()),
            [] if script.unread == Some(1) => None,
            _ => panic!("{line}: {script:?}"),
        }
    }

    #[test]
    fn numbers_below_two_to_the_64() {
        assert_eq!(number(b"0"), Some(0));
        assert_eq!(number(b"000000000000000000000000000000000000000000007"), Some(7));
        assert_eq!(number(b"18446744073709551615"), Some((1 << 64) - 1));
        for wrong in
            ["", "18446744073709551616", "99999999999999999999999999999999999999999999", "-1", "+1", "1a", "0x1"]
        {
            assert_eq!(number(wrong.as_bytes()), None, "{wrong}");
        }
    }

    #[test]
    fn the_four_kinds() {
        assert_eq!(one("adopt"), Some(Change::Adopt { allocation: vec![] }));
        assert_eq!(one("adopt 0 - 255 003 254"), Some(Change::Adopt { allocation: vec![0, 255, 255, 3, 254] }));
        assert_eq!(one("place 16 9"), Some(Change::Place { partition: 16, core: 9 }));
        assert_eq!(one("withdraw 18446744073709551615"), Some(Change::Withdraw { partition: usize::MAX }));
        let numbers = [1, 2, 3, 4, 5, 6, 7, 8, 9, 10];
        assert_eq!(one("retime 0 1 2 3 4 5 6 7 8 9 10"), Some(Change::Retime { task: 0, numbers }));
        for wrong in [
            " ",
            " adopt",
            "adopt ",
            "adopt 0  1",
            "adopt 256",
            "adopt --",
            "adopt\t0",
            "adopt\r",
            "Adopt",
            "adopted",
            "place 1",
            "place 1 -",
            "place 1 2 3",
            "place 1 2 ",
            "withdraw",
            "withdraw -1",
            "withdraw 18446744073709551616",
            "retime 0 1 2 3 4 5 6 7 8 9",
            "retime 0 1 2 3 4 5 6 7 8 9 10 11",
            "retime 0 1 2 3 4 5 6 7 8 9 ten",
            "move 1 2",
            "place 1 2 # away",
            " # no comment",
            "\u{e4}",
        ] {
            assert_eq!(one(wrong), None, "{wrong}");
        }
    }

    #[test]
    fn lines_are_counted() {
        let script = read(b"\n# first\n\nplace 0 1\n#\nwithdraw 0\n\nstop\nplace 0 1\n");
        let steps = vec![(4, Change::Place { partition: 0, core: 1 }), (6, Change::Withdraw { partition: 0 })];
        assert_eq!(script, Script { steps, unread: Some(8) });
        assert_eq!(read(b""), Script::default());
        assert_eq!(read(b"\n\n#"), Script::default());
        // the last line may lack its end
        assert_eq!(read(b"withdraw 3").steps, read(b"withdraw 3\n").steps);
    }

    #[test]
    fn at_most_so_many_changes() {
        let lines = |n| "withdraw 0\n".repeat(n);
        let all = read(lines(MOST_CHANGES).as_bytes());
        assert_eq!((all.steps.len(), all.unread), (MOST_CHANGES, None));
        let more = read((lines(MOST_CHANGES) + "# and\n" + &lines(2)).as_bytes());
        assert_eq!((more.steps.len(), more.unread), (MOST_CHANGES, Some(MOST_CHANGES + 2)));
    }

    #[test]
    fn at_most_so_many_bytes() {
        let start = |len: usize| "#".repeat(len) + "\n";
        let place = Some((2, Change::Place { partition: 1, core: 2 }));
        let after = |len: usize, end: &str| read((start(len) + "place 1 2" + end).as_bytes());
        let fits = MOST_CHANGES_BYTES - "\nplace 1 2".len();
        for end in ["", "\n", "3", " 4\nwithdraw 0\n"] {
            assert_eq!(after(fits, end), Script { steps: place.clone().into_iter().collect(), unread: None }, "{end}");
        }
        // the last line is cut, and stands as it is then
        assert_eq!(after(fits + 1, "\n").unread, Some(2));
        assert_eq!(after(fits - 1, "3\n").steps, [(2, Change::Place { partition: 1, core: 23 })]);
        assert_eq!(after(fits - 1, "34\n").steps, [(2, Change::Place { partition: 1, core: 23 })]);
    }

    #[test]
    fn written_changes_read_back() {
        let changes = vec![
            Change::Adopt { allocation: vec![] },
            Change::Adopt { allocation: vec![3, 255, 0, 17] },
            Change::Place { partition: 0, core: usize::MAX },
            Change::Withdraw { partition: 15 },
            Change::Retime { task: 63, numbers: [(1 << 64) - 1; 10] },
        ];
        let script = read(&write(&changes));
        assert_eq!(script.unread, None);
        assert_eq!(script.steps.into_iter().map(|(_, change)| change).collect::<Vec<_>>(), changes);
    }
}
