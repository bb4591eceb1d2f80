//! Holds the proved checker against the model on many inputs.
//!
//! `cargo test --release --offline --manifest-path beside/Cargo.toml` runs seed 1, as the gate does. With
//! `-- SEED ROUNDS` behind it, another seed and longer.

use beside::differential::Run;
use std::time::Instant;

const STATION: &[u8] = include_bytes!("../../example/station.tab");
const ALLOCATION: &[u8] = include_bytes!("../../example/station.alloc");

fn main() {
    let mut arguments = std::env::args().skip(1).filter_map(|word| word.parse::<u64>().ok());
    let seed = arguments.next().unwrap_or(1);
    let rounds = arguments.next().unwrap_or(1) as usize;
    let began = Instant::now();
    let mut run = Run::new(seed);

    run.check(STATION, ALLOCATION);
    run.damaged(STATION);
    model::faults::cases().iter().for_each(|case| run.file(&case.file));
    for part in [Run::fields, Run::crowds, Run::allocations] {
        part(&mut run);
    }
    for _ in 0..rounds {
        run.random_files(50_000);
        run.random_checks(25_000);
        run.random_asks(1_000);
        run.random_histories(12_000);
    }

    let counts = &run.counts;
    println!("seed {seed}, rounds {rounds}: {:.0} s, no disagreement", began.elapsed().as_secs_f64());
    println!(
        "files read {}, checks {}, histories {} with {} steps, questions to arbiters {}",
        counts.files, counts.checks, counts.histories, counts.steps, counts.asked
    );
    println!("numbers compared {}, bytes compared {}", counts.numbers, counts.bytes);
    println!("answers met, 0 for accepted: {:?}", counts.met);
    for count in [counts.files, counts.checks, counts.histories, counts.steps, counts.asked] {
        assert!(count > 0, "something was not compared at all");
    }
    for number in 0..=17 {
        assert!(counts.met.contains_key(&number), "answer {number} was never met");
    }
}
