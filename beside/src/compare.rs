//! Two answers to the same input, held against each other.

use crate::piles::Pile;
use crate::script::Step;
use std::fmt::Debug;

/// What both sides were given.
#[derive(Clone, Copy, Default)]
pub struct Given<'a> {
    pub file: &'a [u8],
    pub allocation: &'a [u8],
    pub script: Option<(&'a Pile, &'a [Step])>,
}

/// Bytes as lines of 64 hexadecimal digits.
fn hex(bytes: &[u8]) -> String {
    bytes.chunks(32).map(|row| row.iter().map(|byte| format!("{byte:02X}")).collect::<String>() + "\n").collect()
}

/// A command that makes a file again.
fn file(name: &str, bytes: &[u8]) -> String {
    format!("xxd -r -p > {name} <<'END'\n{}END\n", hex(bytes))
}

/// Commands that turn the input back into the files that the programs read: for check a table file and an allocation,
/// for rehearse a table file and changes, with the questions as comments.
fn files(given: &Given) -> String {
    let tab = file("station.tab", given.file);
    let Some((pile, steps)) = given.script else {
        return tab + &file("station.alloc", given.allocation);
    };
    let lines = steps.iter().map(|step| match step {
        Step::Change(change) => model::changes::line(change),
        question => format!("# {question:?}\n"),
    });
    format!("{tab}cat > station.changes <<'END'\n# {pile:?}\n{}END\n", lines.collect::<String>())
}

/// Stops where the answers differ, with the input.
pub fn same<A: PartialEq + Debug>(what: &str, given: &Given, proved: &A, other: &A) {
    if proved != other {
        println!("DISAGREEMENT: {what}\nproved: {proved:?}\nmodel:  {other:?}\n");
        println!("These commands make the files again, in the working folder:\n\n{}", files(given));
        std::process::exit(1);
    }
}

/// The same for long lists, telling the first place where they differ.
pub fn same_list<A: PartialEq + Debug>(what: &str, given: &Given, proved: &[A], other: &[A]) {
    if proved != other {
        let at = proved.iter().zip(other).position(|(a, b)| a != b).unwrap_or(proved.len().min(other.len()));
        let what = format!("{what}: {} and {} entries, different from entry {at} on", proved.len(), other.len());
        same(&what, given, &proved.get(at), &other.get(at));
        same(&what, given, &proved.len(), &other.len());
    }
}
