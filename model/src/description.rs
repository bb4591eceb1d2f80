//! The readable description of a station.
//!
//! One statement in each line; `#` begins a comment.
//!
//! ```text
//! cores 4
//! partition NAME period TIME core N        (or: unplaced, in place of core N)
//! task NAME period TIME deadline TIME execution TIME TIME TIME TIME requests N N N N
//! link NAME NAME
//! ```
//!
//! A task belongs to the partition above it. Partitions and tasks are numbered in the order of their lines. A time is
//! a decimal number with ps, ns, us or ms behind it, such as `1.25ms`. Links are sorted.

use crate::plan::UNPLACED;
use crate::tables::*;

/// A station: its tables and its allocation.
#[derive(Clone, Debug, PartialEq, Eq)]
pub struct Station {
    pub tables: Tables,
    pub allocation: Vec<u8>,
}

/// A time in picoseconds.
fn time(word: &str) -> Result<u128, String> {
    let wrong = || format!("{word} is no time");
    let unit_at = word.find(|c: char| c.is_ascii_alphabetic()).ok_or_else(wrong)?;
    let (number, unit) = word.split_at(unit_at);
    let places = match unit {
        "ps" => 0,
        "ns" => 3,
        "us" => 6,
        "ms" => 9,
        _ => return Err(wrong()),
    };
    let (whole, fraction) = number.split_once('.').unwrap_or((number, ""));
    if whole.is_empty()
        || fraction.len() > places
        || !(whole.to_string() + fraction).bytes().all(|b| b.is_ascii_digit())
    {
        return Err(wrong());
    }
    format!("{whole}{fraction:0<places$}").parse().map_err(|_| wrong())
}

/// The words of a line, taken one by one.
struct Words<'a>(std::str::SplitWhitespace<'a>);

impl<'a> Words<'a> {
    fn next(&mut self) -> Result<&'a str, String> {
        self.0.next().ok_or_else(|| "the line ends too early".to_string())
    }

    fn keyword(&mut self, wanted: &str) -> Result<(), String> {
        match self.next()? {
            word if word == wanted => Ok(()),
            word => Err(format!("{word} stands where {wanted} is wanted")),
        }
    }

    fn name(&mut self) -> Result<Vec<u8>, String> {
        let word = self.next()?;
        if name_in_range(word.as_bytes()) {
            Ok(word.as_bytes().to_vec())
        } else {
            Err(format!("{word} is no name of 1 to 15 visible bytes"))
        }
    }

    fn time(&mut self) -> Result<u128, String> {
        time(self.next()?)
    }

    fn count(&mut self) -> Result<u128, String> {
        let word = self.next()?;
        word.parse().map_err(|_| format!("{word} is no count"))
    }

    fn end(mut self) -> Result<(), String> {
        match self.0.next() {
            Some(word) => Err(format!("{word} stands after the end of the statement")),
            None => Ok(()),
        }
    }
}

fn statement(station: &mut Station, line: &str) -> Result<(), String> {
    let mut words = Words(line.split_whitespace());
    let Ok(kind) = words.next() else { return Ok(()) };
    let tables = &mut station.tables;
    match kind {
        "cores" => match words.count()? {
            n if (1..=MOST_CORES as u128).contains(&n) => tables.cores = n as usize,
            n => return Err(format!("{n} is no number of cores")),
        },
        "partition" => {
            let name = words.name()?;
            if tables.partitions.iter().any(|other| other.name == name) {
                return Err("the name stands already for another partition".to_string());
            }
            words.keyword("period")?;
            let period = words.time()?;
            let byte = match words.next()? {
                "unplaced" => UNPLACED,
                "core" => words.count()?.try_into().map_err(|_| "the core is no byte".to_string())?,
                word => return Err(format!("{word} stands where core or unplaced is wanted")),
            };
            tables.partitions.push(Partition { period, name });
            station.allocation.push(byte);
        }
        "task" => {
            let partition = tables.partitions.len().checked_sub(1).ok_or("the task has no partition above it")?;
            let name = words.name()?;
            words.keyword("period")?;
            let period = words.time()?;
            words.keyword("deadline")?;
            let deadline = words.time()?;
            words.keyword("execution")?;
            let execution = [words.time()?, words.time()?, words.time()?, words.time()?];
            words.keyword("requests")?;
            let requests = [words.count()?, words.count()?, words.count()?, words.count()?];
            let task = Task { partition, period, deadline, execution, requests, name };
            if let Some(position) = first_out_of_range(&numbers(&task)) {
                return Err(format!("number {position} of the task, counted from 0, is out of range"));
            }
            tables.tasks.push(task);
        }
        "link" => {
            let mut end = || -> Result<usize, String> {
                let name = words.name()?;
                let found = tables.partitions.iter().position(|partition| partition.name == name);
                found.ok_or_else(|| "the link names no partition above it".to_string())
            };
            let (a, b) = (end()?, end()?);
            if a == b {
                return Err("the link joins a partition with itself".to_string());
            }
            tables.links.push((a.min(b), a.max(b)));
        }
        _ => return Err(format!("{kind} begins no statement")),
    }
    words.end()
}

/// Reads a description; a fault is told with its line.
pub fn parse(text: &str) -> Result<Station, String> {
    let tables = Tables { cores: 0, partitions: vec![], tasks: vec![], links: vec![] };
    let mut station = Station { tables, allocation: vec![] };
    for (k, line) in text.lines().enumerate() {
        let said = line.split('#').next().unwrap_or("");
        statement(&mut station, said).map_err(|why| format!("line {}: {why}", k + 1))?;
    }
    station.tables.links.sort();
    let tables = &station.tables;
    if tables.partitions.len() > MOST_PARTITIONS || tables.tasks.len() > MOST_TASKS || tables.links.len() > MOST_LINKS {
        return Err("there are too many partitions, tasks or links".to_string());
    }
    let bytes = crate::file::write(&station.tables);
    match crate::file::read(&bytes) {
        Ok(back) if back == station.tables => Ok(station),
        Ok(_) => Err("the tables do not read back as they were written".to_string()),
        Err(refusal) => Err(format!("the table file would be refused {} at {}", refusal.number, refusal.tells)),
    }
}

#[cfg(test)]
mod tests {
    use super::*;

    #[test]
    fn times_with_units() {
        assert_eq!(time("7ps"), Ok(7));
        assert_eq!(time("48.75ns"), Ok(48_750));
        assert_eq!(time("350us"), Ok(350_000_000));
        assert_eq!(time("1.25ms"), Ok(1_250_000_000));
        assert_eq!(time("20ms"), Ok(20_000_000_000));
        for wrong in ["", "ms", "1", "1.5ps", "1s", "1..5ms", "-1ms", ".5ms", "1.0000000001ms"] {
            assert!(time(wrong).is_err(), "{wrong}");
        }
    }

    #[test]
    fn a_small_station() {
        let text = "
            cores 2                                  # two of them
            partition b period 20ms core 1
            task x period 20ms deadline 10ms execution 1ms 2ms 3ms 4ms requests 1 2 3 4
            partition a period 1ms unplaced
            link a b
        ";
        let station = parse(text).unwrap();
        assert_eq!(station.allocation, [1, 255]);
        assert_eq!(station.tables.cores, 2);
        assert_eq!(station.tables.links, [(0, 1)]);
        assert_eq!(station.tables.tasks[0].execution[3], 4_000_000_000);
        assert_eq!(station.tables.tasks[0].requests, [1, 2, 3, 4]);
    }

    #[test]
    fn faults_are_told_with_their_line() {
        assert_eq!(parse("cores 1\ntask"), Err("line 2: the task has no partition above it".to_string()));
        assert_eq!(parse("cores 1\nlink a b"), Err("line 2: the link names no partition above it".to_string()));
        assert_eq!(parse("cores 5"), Err("line 1: 5 is no number of cores".to_string()));
        assert_eq!(parse("# nothing"), Err("the table file would be refused 2 at 0".to_string()));
        assert_eq!(parse("core 1"), Err("line 1: core begins no statement".to_string()));
        assert_eq!(parse("cores 1 2"), Err("line 1: 2 stands after the end of the statement".to_string()));
    }
}
