//! The texts that the programs print.

use crate::arbiter::station;
use crate::plan::{fill, Plan};
use crate::refusal::{sentence, Refusal, LATE};

/// At most so many bytes of the table file are read: one more than the largest has.
pub const MOST_TABLE_BYTES: usize = 4_236;
/// At most so many bytes of the allocation are read: one more than the largest has.
pub const MOST_ALLOCATION_BYTES: usize = 17;

/// What the program checker prints for these two files: the listing, or the refusal.
pub fn check_text(table_file: &[u8], allocation: &[u8]) -> Vec<u8> {
    let listing = || -> Result<Vec<u8>, Refusal> {
        let mut plan = Plan::birth(table_file)?;
        let arbiter = station(plan.tables.cores);
        plan.adopt(&arbiter, allocation)?;
        Ok(plan.listing_text(&arbiter))
    };
    match listing() {
        Ok(text) => text,
        Err(Refusal { number, tells }) => format!("refused {number} at {tells}\n").into_bytes(),
    }
}

/// The same, written into a buffer; the answer is the length.
pub fn check(table_file: &[u8], allocation: &[u8], buffer: &mut [u8]) -> Result<usize, Refusal> {
    let text = check_text(table_file, allocation);
    fill(&text, buffer)?;
    Ok(text.len())
}

fn verdict(refusal: Refusal) -> String {
    format!("Verdict: refused {} at {}. {}\n", refusal.number, refusal.tells, sentence(refusal.number))
}

fn shown(name: &[u8]) -> String {
    name.iter().map(|&byte| byte as char).collect()
}

/// What the program summary prints for these two files.
pub fn summary_text(table_file: &[u8], allocation: &[u8]) -> Vec<u8> {
    let mut text = format!("Read station.tab: {} bytes", table_file.len());
    let alloc_line = format!("Read station.alloc: {} bytes.\n", allocation.len());

    let born = match Plan::birth(table_file) {
        Ok(plan) => plan,
        Err(refusal) => return (text + ".\n" + &alloc_line + &verdict(refusal)).into_bytes(),
    };
    let tables = &born.tables;
    text += &format!(
        ", {} cores, {} partitions, {} tasks, {} links.\n",
        tables.cores,
        tables.partitions.len(),
        tables.tasks.len(),
        tables.links.len()
    );
    text += &alloc_line;

    let proposed = match born.allocated(allocation) {
        Ok(plan) => plan,
        Err(refusal) => return (text + &verdict(refusal)).into_bytes(),
    };
    for (k, partition) in tables.partitions.iter().enumerate() {
        let place = match proposed.core[k] {
            Some(core) => format!("core {core}"),
            None => "unplaced".to_string(),
        };
        text += &format!("Partition {k} {}: {place}.\n", shown(&partition.name));
    }

    let arbiter = station(tables.cores);
    if let Some(i) = proposed.first_late(&arbiter) {
        text += &verdict(Refusal { number: LATE, tells: i as u128 });
        text += &format!("Late: task {i} {}, limit {} ps.\n", shown(&tables.tasks[i].name), proposed.limit(i));
        return text.into_bytes();
    }
    text += "Verdict: accepted. Every placed task meets its limit.\n";
    // min_by_key gives the first among equals
    let least = (0..tables.tasks.len())
        .filter_map(|i| proposed.time(&arbiter, i).map(|time| (i, time)))
        .min_by_key(|&(i, time)| proposed.limit(i) - time);
    match least {
        None => text += "No task is placed.\n",
        Some((i, time)) => {
            let limit = proposed.limit(i);
            text += &format!(
                "Least slack: task {i} {}, time {time} ps, limit {limit} ps, slack {} ps.\n",
                shown(&tables.tasks[i].name),
                limit - time
            );
        }
    }
    text.into_bytes()
}
