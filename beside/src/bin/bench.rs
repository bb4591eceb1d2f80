//! Measures the proved checker beside the model and beside plain Rust for speed, in one run and on the same inputs, and
//! prints a table of Markdown.
//!
//! Each line is measured in rounds. In a round every side does the same work one after the other, often enough for a
//! time that the clock can tell; the ratios are those of one round, and the median over the rounds is printed. Caches
//! are not cleared.

use beside::workloads::{self, Input};
use beside::{modelled, plain, proved};
use std::hint::black_box;
use std::time::Instant;

/// The work of a line, for each side.
struct Work<'a> {
    name: String,
    proved: Box<dyn Fn() + 'a>,
    plain: Box<dyn Fn() + 'a>,
    model: Box<dyn Fn() + 'a>,
}

/// A round measures each side for at least so long, in seconds.
const LEAST: f64 = 0.01;

/// Seconds for one call, over so many.
fn seconds(work: &dyn Fn(), calls: usize) -> f64 {
    let began = Instant::now();
    (0..calls).for_each(|_| work());
    began.elapsed().as_secs_f64() / calls as f64
}

/// How many calls take long enough.
fn calls(work: &dyn Fn()) -> usize {
    let once = seconds(work, 1).max(1e-9);
    ((LEAST / once).ceil() as usize).max(1)
}

fn median(mut numbers: Vec<f64>) -> f64 {
    numbers.sort_by(f64::total_cmp);
    numbers[numbers.len() / 2]
}

fn shown(seconds: f64) -> String {
    match seconds {
        s if s < 1e-3 => format!("{:.1} us", s * 1e6),
        s if s < 1.0 => format!("{:.2} ms", s * 1e3),
        s => format!("{s:.2} s"),
    }
}

/// Measures a line and prints it; gives the median time of the proved side.
fn measure(work: &Work, rounds: usize) -> f64 {
    let sides = [&work.proved, &work.plain, &work.model];
    let counts = sides.map(|side| calls(side));
    let times: Vec<[f64; 3]> = (0..rounds).map(|_| [0, 1, 2].map(|k| seconds(sides[k], counts[k]))).collect();
    let side = |k: usize| median(times.iter().map(|round| round[k]).collect());
    let ratio = |k: usize| median(times.iter().map(|round| round[0] / round[k]).collect());
    println!(
        "| {} | {} | {} | {} | {:.2} | {:.3} |",
        work.name,
        shown(side(0)),
        shown(side(1)),
        shown(side(2)),
        ratio(1),
        ratio(2)
    );
    side(0)
}

/// Judging: what checker prints of a file and an allocation.
fn judging<'a>(name: &str, input: &'a Input) -> Work<'a> {
    let Input { file, allocation } = input;
    let text = model::check_text(file, allocation);
    let mut out = vec![0; 3_700];
    let answer = proved::check(file, allocation, &mut out);
    assert_eq!((answer.number, &out[..answer.tells]), (0, &text[..]));
    assert_eq!(plain::check_text(file, allocation).as_bytes(), text);
    assert!(!text.starts_with(b"refused"), "{name} is accepted");
    Work {
        name: name.to_string(),
        proved: Box::new(|| {
            let mut out = [0; 3_700];
            black_box(proved::check(file, allocation, &mut out));
        }),
        plain: Box::new(|| {
            black_box(plain::check_text(file, allocation));
        }),
        model: Box::new(|| {
            black_box(model::check_text(file, allocation));
        }),
    }
}

/// Reading alone.
fn reading<'a>(name: &str, input: &'a Input) -> Work<'a> {
    let file = &input.file;
    assert_eq!(proved::tables(file), modelled::tables(file));
    assert!(plain::read(file).is_ok());
    Work {
        name: name.to_string(),
        proved: Box::new(|| {
            black_box(proved::read(file));
        }),
        plain: Box::new(|| {
            let _ = black_box(plain::read(file));
        }),
        model: Box::new(|| {
            let _ = black_box(model::read_tables(file));
        }),
    }
}

fn head() {
    println!("| Work | proved | plain Rust | model | proved / plain | proved / model |");
    println!("|---|---|---|---|---|---|");
}

fn main() {
    let (shipped, full, slow) = (workloads::shipped(), workloads::full(64), workloads::slow());
    assert_eq!(full.file.len(), 4_235);
    head();
    measure(&judging("judging the shipped station, 30 tasks", &shipped), 31);
    measure(&judging("judging a full computer, 64 tasks", &full), 31);
    measure(&judging("the slowest judgement", &slow), 3);
    measure(&reading("reading the shipped station, 1,683 bytes", &shipped), 31);
    measure(&reading("reading the largest file, 4,235 bytes", &full), 31);

    println!("\nCost as the work grows: four cores, 16 partitions, 120 links.\n");
    head();
    let counts = [8, 16, 32, 64];
    let times = counts.map(|tasks| {
        let input = workloads::full(tasks);
        let work = judging(&format!("{tasks} tasks"), &input);
        measure(&work, 31)
    });
    println!();
    let most = times[counts.len() - 1];
    for (tasks, time) in counts.iter().zip(times) {
        let bar = "#".repeat((60.0 * time / most).ceil() as usize);
        println!("    {tasks:2} tasks  {:>9}  {bar}", shown(time));
    }
}
