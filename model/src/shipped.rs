//! The files of the shipped example that are made from its description and its changes, and small damaged or late
//! inputs.

use crate::description;
use crate::faults;
use crate::file;
use crate::plan::UNPLACED;
use crate::rehearsal::rehearse_text;
use crate::tables::*;
use crate::text::{check_text, summary_text, MOST_ALLOCATION_BYTES, MOST_TABLE_BYTES};

/// Where the description stands.
pub const DESCRIPTION: &str = "example/station.txt";
/// Where the changes of a day stand.
pub const CHANGES: &str = "example/station.changes";

const MS: u128 = 1_000_000_000;

/// An input that is refused: its name, what is wrong with it, and the two files.
pub struct Refused {
    pub name: &'static str,
    pub why: &'static str,
    pub tab: Vec<u8>,
    pub alloc: Vec<u8>,
}

fn partition(name: &str, period: u128) -> Partition {
    Partition { period, name: name.as_bytes().to_vec() }
}

fn task(name: &str, partition: usize, period: u128, deadline: u128, execution: u128, requests: u128) -> Task {
    let name = name.as_bytes().to_vec();
    Task { partition, period, deadline, execution: [execution; 4], requests: [requests; 4], name }
}

fn answer(tab: &[u8]) -> String {
    match file::read(tab) {
        Ok(_) => "accepted".to_string(),
        Err(e) => format!("refused {} at {}", e.number, e.tells),
    }
}

fn runs(kind: &str, answers: &[String]) -> String {
    let mut text = String::new();
    let mut from = 0;
    for to in 0..answers.len() {
        if to + 1 == answers.len() || answers[to + 1] != answers[from] {
            text += &format!("{kind} {from}-{to}: {}\n", answers[from]);
            from = to + 1;
        }
    }
    text
}

/// What becomes of each file of the table of faults.
pub fn faults_text(cases: &[faults::Case]) -> Vec<u8> {
    cases.iter().map(|case| format!("{}: {}\n", case.what, answer(&case.file))).collect::<String>().into_bytes()
}

/// What becomes of a table file cut after each byte, and with each single bit turned, where neighbours with the same
/// answer share a line.
pub fn damaged_text(tab: &[u8]) -> Vec<u8> {
    let cut: Vec<String> = (0..=tab.len()).map(|n| answer(&tab[..n])).collect();
    let turned: Vec<String> = (0..8 * tab.len())
        .map(|bit| {
            let mut other = tab.to_vec();
            other[bit / 8] ^= 128 >> (bit % 8);
            answer(&other)
        })
        .collect();
    (runs("prefix", &cut) + &runs("bit", &turned)).into_bytes()
}

/// Two cores, two partitions with one task each and a link between them.
pub fn two_cores() -> Tables {
    Tables {
        cores: 2,
        partitions: vec![partition("radio", 20 * MS), partition("disk", 10 * MS)],
        tasks: vec![task("receive", 0, 20 * MS, 20 * MS, 4 * MS, 1_000), task("write", 1, 10 * MS, 10 * MS, MS, 2_000)],
        links: vec![(0, 1)],
    }
}

/// The largest table file there can be.
pub fn largest() -> Tables {
    let name = "fifteen-bytes-x";
    let mut links = vec![];
    for a in 0..16 {
        links.extend((a + 1..16).map(|b| (a, b)));
    }
    Tables {
        cores: 4,
        partitions: vec![partition(name, MOST_TIME); 16],
        tasks: (0..64).map(|i| task(name, i / 4, MOST_TIME, MOST_TIME, 1, 0)).collect(),
        links,
    }
}

fn refused(station: &description::Station) -> Vec<Refused> {
    let mut list = vec![];
    let both = vec![0, 1];
    let mut add = |name, why, tab, alloc: &[u8]| list.push(Refused { name, why, tab, alloc: alloc.to_vec() });

    add("empty", "Both files are empty.", vec![], &[]);

    let whole = file::write(&two_cores());
    let first_task = file::HEADER_BYTES + 2 * file::PARTITION_BYTES + "radiodisk".len();
    add("cut-row", "The file ends within the numbers of task 0.", whole[..first_task + 30].to_vec(), &both);
    let name_end = first_task + file::TASK_BYTES + "receive".len();
    add("cut-name", "The file ends within the name of task 0.", whole[..name_end - 1].to_vec(), &both);

    let mut tab = whole.clone();
    tab[2] |= 1;
    add("spare-bit", "A spare bit of the header is 1.", tab, &both);

    let mut tables = two_cores();
    tables.partitions[0].period = LEAST_PERIOD - 1;
    add("short-period", "The period of partition 0 is 999,999,999.", file::write(&tables), &both);

    let mut tables = two_cores();
    tables.tasks[1].execution[3] = 0;
    let why = "Task 1 has no execution time on core 3, which this computer lacks.";
    add("no-execution", why, file::write(&tables), &both);

    let mut tables = two_cores();
    tables.partitions[1].name = b"hard disk".to_vec();
    add("blank-in-name", "The name of partition 1 has a blank.", file::write(&tables), &both);

    let mut tables = two_cores();
    tables.tasks[1].partition = 2;
    add("no-partition", "Task 1 names partition 2 of 2.", file::write(&tables), &both);

    let mut tables = two_cores();
    tables.links.push((0, 1));
    add("link-twice", "The same link stands twice.", file::write(&tables), &both);

    let mut tables = two_cores();
    tables.links = vec![(1, 0)];
    add("link-turned", "A link has the larger number first.", file::write(&tables), &both);

    let mut tab = whole.clone();
    tab.push(0);
    add("byte-after", "A byte follows the last row.", tab, &both);

    let mut tab = file::write(&largest());
    tab.push(0);
    add("largest-and-one", "The largest table file with one byte more.", tab, &[0; 16]);

    let mut tables = two_cores();
    tables.links.clear();
    tables.tasks = (0..17).map(|_| task("t", 0, 20 * MS, 20 * MS, 1, 0)).collect();
    add("seventeenth", "Partition 0 has 17 tasks.", file::write(&tables), &both);

    add("no-core", "The allocation puts partition 1 on core 2 of 2.", whole.clone(), &[0, 2]);
    add("short-alloc", "The allocation has one entry for two partitions.", whole.clone(), &[0]);
    add("long-alloc", "The allocation has 20 entries, of which 17 are read.", whole, &[0; 20]);

    let late = Tables {
        cores: 1,
        partitions: vec![partition("only", 20 * MS)],
        tasks: vec![task("first", 0, 10 * MS, 10 * MS, 3 * MS, 0), task("second", 0, 20 * MS, 13 * MS, 8 * MS, 0)],
        links: vec![],
    };
    add("late", "Task 1 needs 14 ms and has a deadline of 13 ms.", file::write(&late), &[0]);

    let tab = file::write(&station.tables);
    let number = |name: &str| station.tables.partitions.iter().position(|p| p.name == name.as_bytes()).unwrap();
    let with = |name, byte| {
        let mut alloc = station.allocation.clone();
        alloc[number(name)] = byte;
        alloc
    };
    let why = "The shipped station without housekeeping: cores 2 and 3 no longer share, and core 0 waits longer.";
    add("withdrawn", why, tab.clone(), &with("housekeeping", UNPLACED));
    let why = "The shipped station with forwarding moved from core 3 to core 1: a task on core 0 is late.";
    add("moved", why, tab, &with("forwarding", 1));
    list
}

fn head(bytes: &[u8], most: usize) -> &[u8] {
    &bytes[..bytes.len().min(most)]
}

/// All files made from the description and the changes, each with its place below the top folder.
pub fn files(text: &str, changes: &[u8]) -> Result<Vec<(String, Vec<u8>)>, String> {
    let station = description::parse(text)?;
    let changes = changes.to_vec();
    let tab = file::write(&station.tables);
    let alloc = station.allocation.clone();
    let check = check_text(&tab, &alloc);
    let summary = summary_text(&tab, &alloc);
    let rehearsal = rehearse_text(&tab, &changes);
    let cases = faults::cases();
    let bases = faults::bases();
    let damaged = damaged_text(&tab);
    let faulty = faults_text(&cases);
    let mut all: Vec<(String, Vec<u8>)> = vec![];
    for (place, bytes) in [
        ("example/station.tab", &tab),
        ("example/station.alloc", &alloc),
        ("example/check.stdout", &check),
        ("example/summary.stdout", &summary),
        ("example/rehearse.stdout", &rehearsal),
        ("crates/checker/data/station.tab", &tab),
        ("crates/checker/data/station.alloc", &alloc),
        ("crates/checker/stdout", &check),
        ("crates/summary/data/station.tab", &tab),
        ("crates/summary/data/station.alloc", &alloc),
        ("crates/summary/stdout", &summary),
        ("crates/rehearse/data/station.tab", &tab),
        ("crates/rehearse/data/station.changes", &changes),
        ("crates/rehearse/stdout", &rehearsal),
        ("crates/damaged/data/station.tab", &tab),
        ("crates/faulty/data/small.tab", &bases.small),
        ("crates/faulty/data/crowd.tab", &bases.crowd),
        ("crates/faulty/data/largest.tab", &bases.largest),
        ("crates/faulty/data/faults.txt", &faults::table_text(&cases)),
        ("crates/damaged/stdout", &damaged),
        ("crates/faulty/stdout", &faulty),
    ] {
        all.push((place.to_string(), bytes.clone()));
    }

    let mut lines = String::from(
        "# Inputs that are refused\n\n\
         For each input NAME.tab is the table file, NAME.alloc the allocation, NAME.check what the program checker \
         prints and NAME.summary what the program summary prints.\n\n\
         | Input | Checker prints | What is wrong |\n|---|---|---|\n",
    );
    for Refused { name, why, tab, alloc } in refused(&station) {
        let (seen_tab, seen_alloc) = (head(&tab, MOST_TABLE_BYTES), head(&alloc, MOST_ALLOCATION_BYTES));
        let check = check_text(seen_tab, seen_alloc);
        let summary = summary_text(seen_tab, seen_alloc);
        lines += &format!("| {name} | {} | {why} |\n", String::from_utf8_lossy(&check).trim_end());
        for (end, bytes) in [("tab", tab), ("alloc", alloc), ("check", check), ("summary", summary)] {
            all.push((format!("example/refused/{name}.{end}"), bytes));
        }
    }
    all.push(("example/refused/README.md".to_string(), lines.into_bytes()));
    Ok(all)
}
