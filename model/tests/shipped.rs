//! The shipped example is what its description gives, and the programs print it.

use model::arbiter::{station, Arbiter, JobDriven, Question, RequestDriven};
use model::changes::{self, Change};
use model::description::{parse, Station};
use model::faults;
use model::plan::Plan;
use model::rehearsal::rehearse;
use model::shipped::{files, CHANGES, DESCRIPTION};
use std::collections::BTreeSet;
use std::path::Path;
use std::process::Command;
use std::{env, fs};

fn top() -> &'static Path {
    Path::new(env!("CARGO_MANIFEST_DIR")).parent().unwrap()
}

#[test]
fn every_file_is_current() {
    let text = fs::read_to_string(top().join(DESCRIPTION)).unwrap();
    let changes = fs::read(top().join(CHANGES)).unwrap();
    for (place, bytes) in files(&text, &changes).unwrap() {
        assert!(fs::read(top().join(&place)).unwrap() == bytes, "{place} is not current");
    }
}

/// The bytes that a line of the table of faults tells.
fn told_by(line: &str) -> Vec<u8> {
    let words: Vec<&str> = line.splitn(5, ' ').collect();
    let base = fs::read(top().join("crates/faulty/data").join(words[0])).unwrap();
    let (front, back): (usize, usize) = (words[1].parse().unwrap(), words[3].parse().unwrap());
    let digits = words[2].as_bytes().chunks(2);
    let middle = digits.map(|two| u8::from_str_radix(std::str::from_utf8(two).unwrap(), 16).unwrap());
    base[..front].iter().copied().chain(middle).chain(base[back..].iter().copied()).collect()
}

/// Every line of the table of faults tells its file, each fault is there at several offsets, and no case is there twice.
#[test]
fn the_table_of_faults() {
    let cases = faults::cases();
    let table = fs::read_to_string(top().join("crates/faulty/data/faults.txt")).unwrap();
    let mut offsets = vec![BTreeSet::new(); 8];
    let mut names = BTreeSet::new();
    assert_eq!(table.lines().count(), cases.len());
    for (line, case) in table.lines().zip(&cases) {
        assert_eq!(told_by(line), case.file, "{line}");
        assert!(names.insert(&case.what), "{line}");
        if let Err(refusal) = model::read_tables(&case.file) {
            offsets[refusal.number as usize].insert(refusal.tells);
        }
    }
    let counts: Vec<usize> = offsets.iter().map(BTreeSet::len).collect();
    assert_eq!(counts, [0, 11, 7, 5, 5, 4, 4, 2]);
}

#[test]
fn the_station_is_accepted() {
    let summary = fs::read_to_string(top().join("example/summary.stdout")).unwrap();
    assert!(summary.contains("Verdict: accepted."));
}

/// What the page of the example says about it.
#[test]
fn the_page_tells_the_truth() {
    let text = fs::read_to_string(top().join(DESCRIPTION)).unwrap();
    let Station { tables, allocation } = parse(&text).unwrap();
    let arbiter = station(4);
    let mut plan = Plan::of_tables(tables.clone());
    plan.adopt(&arbiter, &allocation).unwrap();
    assert_eq!((tables.partitions.len(), tables.tasks.len(), tables.links.len()), (8, 30, 9));

    // per cent of each core that its tasks execute
    let used = |core: usize| -> u128 {
        let on_core = (0..30).filter(|&i| plan.core_of_task(i) == Some(core));
        let millionths: u128 =
            on_core.map(|i| tables.tasks[i].execution[core] * 1_000_000 / tables.tasks[i].period).sum();
        (millionths + 5_000) / 10_000
    };
    assert_eq!([used(0), used(1), used(2), used(3)], [48, 45, 30, 47]);

    // windows in microseconds, rounded; on each core the two fit into the shorter period
    let windows = plan.all_windows(&arbiter);
    let rounded: Vec<u128> = windows.iter().map(|window| (window + 500_000) / 1_000_000).collect();
    assert_eq!(rounded, [8_040, 1_672, 6_521, 1_743, 9_782, 16_958, 11_703, 8_021]);
    for core in 0..4 {
        let on_core: Vec<usize> = (0..8).filter(|&k| plan.core[k] == Some(core)).collect();
        let shorter = on_core.iter().map(|&k| tables.partitions[k].period).min().unwrap();
        assert!(on_core.iter().all(|&k| tables.partitions[k].period % shorter == 0));
        assert!(on_core.iter().map(|&k| windows[k]).sum::<u128>() <= shorter);
    }

    // the tightest tasks, with tenths of a per cent of the limit left
    let times = plan.all_times(&arbiter);
    let mut left: Vec<(u128, usize)> =
        (0..30).map(|i| (((plan.limit(i) - times[i]) * 10_000 / plan.limit(i) + 5) / 10, i)).collect();
    left.sort();
    assert_eq!(left[..5], [(17, 7), (40, 3), (43, 4), (68, 12), (70, 11)]);

    // which bound is the lesser one
    let requests = RequestDriven::new(4, 48_750, 60_000, 5_000).unwrap();
    let others = JobDriven::new(4, 48_750, 60_000).unwrap();
    for (i, &time) in times.iter().enumerate() {
        let question = plan.question(i, plan.core_of_task(i).unwrap(), time);
        assert_eq!(others.bound(&question) < requests.bound(&question), i == 4);
    }

    // a request from core 0, with and without housekeeping
    let wait = |plan: &Plan| requests.bound(&Question { own: 1, ..plan.question(0, 0, 1) });
    assert_eq!(wait(&plan), 173_750);
    plan.core[7] = None;
    assert_eq!(wait(&plan), 271_250);
    plan.core[7] = Some(2);
    plan.core[6] = Some(1);
    assert_eq!(wait(&plan), 271_250);

    // ways to place all partitions
    let born = Plan::of_tables(tables);
    let accepted = (0..65_536u32).filter(|way| {
        let bytes: Vec<u8> = (0..8).map(|k| (way >> (2 * k) & 3) as u8).collect();
        born.allocated(&bytes).unwrap().first_late(&arbiter).is_none()
    });
    assert_eq!(accepted.count(), 33);
}

fn printed(program: &str, args: &[&Path]) -> Vec<u8> {
    let output = Command::new(program).args(args).output().unwrap();
    assert!(output.status.success());
    output.stdout
}

/// The day has changes of every kind, and what its comments say of them holds.
#[test]
fn the_day_of_the_station() {
    let tab = fs::read(top().join("example/station.tab")).unwrap();
    let script = changes::read(&fs::read(top().join(CHANGES)).unwrap());
    assert_eq!(script.unread, None);
    let (lines, changes): (Vec<usize>, Vec<Change>) = script.steps.into_iter().unzip();
    let arbiter = station(4);
    let (mut plan, log) = rehearse(&tab, &arbiter, &changes).unwrap();

    let verdicts: Vec<(usize, u32, u128)> = lines
        .iter()
        .zip(&log)
        .filter_map(|(&line, outcome)| outcome.verdict.err().map(|refusal| (line, refusal.number, refusal.tells)))
        .collect();
    let late = [(9, 3), (24, 12), (52, 7), (63, 7), (75, 3), (89, 3)];
    let other = [(15, 9, 8), (18, 10, 4), (21, 14, 0), (28, 11, 30), (48, 12, 2), (78, 13, 7)];
    let mut said: Vec<(usize, u32, u128)> = late.iter().map(|&(line, task)| (line, 15, task)).collect();
    said.extend(other);
    said.sort();
    assert_eq!(verdicts, said);

    // retimes that ease a task are among the accepted ones, and so are others
    let mut before = Plan::birth(&tab).unwrap();
    let mut eased = vec![];
    let mut harder = vec![];
    for (k, change) in changes.iter().enumerate() {
        let eases = before.eases(change);
        if before.change(&arbiter, change).is_ok() && matches!(change, Change::Retime { .. }) {
            if eases { &mut eased } else { &mut harder }.push(lines[k]);
        }
    }
    assert_eq!(eased, [31, 32, 35, 36]);
    assert_eq!(harder, [59, 60, 71, 72]);
    assert_eq!(before, plan);

    assert_eq!((changes.len(), log.iter().filter(|outcome| outcome.verdict.is_ok()).count()), (33, 21));
    assert_eq!(log[32].times, log[31].times);

    // what makes the withdrawals of the morning possible, and the deadline late
    let until = |last: usize, without: &[usize]| {
        let kept = lines.iter().zip(&changes).filter(|(line, _)| **line <= last && !without.contains(line));
        let kept: Vec<Change> = kept.map(|(_, change)| change.clone()).collect();
        let (plan, log) = rehearse(&tab, &arbiter, &kept).unwrap();
        (plan, log.last().unwrap().verdict.map_err(|refusal| (refusal.number, refusal.tells)))
    };
    assert_eq!(until(42, &eased).1, Ok(()));
    assert_eq!(until(42, &[39]).1, Err((15, 11)));
    assert_eq!(until(45, &eased).1, Err((15, 3)));
    assert_eq!(until(52, &[42]).1, Err((15, 7)));
    assert_eq!(until(52, &[45, 48]).1, Ok(()));
    assert_eq!(until(67, &[]).1, Ok(()));
    assert_eq!(until(67, &[66]).1, Err((15, 7)));

    // in the end all numbers are those of the morning, and so its allocation is accepted
    let alloc = fs::read(top().join("example/station.alloc")).unwrap();
    assert_eq!(changes[0], Change::Adopt { allocation: alloc.clone() });
    plan.adopt(&arbiter, &alloc).unwrap();
    assert_eq!(plan.listing_text(&arbiter), fs::read(top().join("example/check.stdout")).unwrap());
}

#[test]
fn programs_print_what_is_shipped() {
    let (judge, summarize) = (env!("CARGO_BIN_EXE_judge"), env!("CARGO_BIN_EXE_summarize"));
    let play_day = env!("CARGO_BIN_EXE_play-day");
    let example = top().join("example");
    let (tab, alloc) = (example.join("station.tab"), example.join("station.alloc"));
    assert_eq!(printed(judge, &[&tab, &alloc]), fs::read(example.join("check.stdout")).unwrap());
    assert_eq!(printed(summarize, &[&tab, &alloc]), fs::read(example.join("summary.stdout")).unwrap());
    let changes = example.join("station.changes");
    assert_eq!(printed(play_day, &[&tab, &changes]), fs::read(example.join("rehearse.stdout")).unwrap());

    let refused = example.join("refused");
    let mut count = 0;
    for entry in fs::read_dir(&refused).unwrap() {
        let tab = entry.unwrap().path();
        if tab.extension().is_some_and(|end| end == "tab") {
            let alloc = tab.with_extension("alloc");
            let check = fs::read(tab.with_extension("check")).unwrap();
            assert!(check.starts_with(b"refused "));
            assert_eq!(printed(judge, &[&tab, &alloc]), check);
            assert_eq!(printed(summarize, &[&tab, &alloc]), fs::read(tab.with_extension("summary")).unwrap());
            count += 1;
        }
    }
    assert!(count >= 15);

    // a missing file counts as empty
    let missing = example.join("there-is-no-such-file");
    assert_eq!(printed(judge, &[&missing, &missing]), b"refused 1 at 0\n");
    assert_eq!(printed(play_day, &[&missing, &changes]), b"refused 1 at 0\n");
    assert!(printed(play_day, &[&tab, &missing]).starts_with(b"played 0, accepted 0, refused 0\n0 0\n1 0\n"));
}

#[test]
fn a_station_is_made_from_its_description() {
    let folder = env::temp_dir().join(format!("make-station-{}", std::process::id()));
    fs::create_dir_all(&folder).unwrap();
    printed(env!("CARGO_BIN_EXE_make-station"), &[&top().join(DESCRIPTION), &folder]);
    for name in ["station.tab", "station.alloc"] {
        assert_eq!(fs::read(folder.join(name)).unwrap(), fs::read(top().join("example").join(name)).unwrap());
    }
    fs::remove_dir_all(&folder).unwrap();
}
