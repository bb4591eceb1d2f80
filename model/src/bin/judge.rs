//! Prints what the program checker prints for a table file and an allocation.
use model::input::first_bytes;
use model::text::{check_text, MOST_ALLOCATION_BYTES, MOST_TABLE_BYTES};
use std::io::{stdout, Write};
use std::{env, process::exit};

fn main() {
    let args: Vec<String> = env::args().skip(1).collect();
    let [tab, alloc] = &args[..] else {
        eprintln!("usage: judge TABLE-FILE ALLOCATION");
        exit(2);
    };
    let text = check_text(&first_bytes(tab, MOST_TABLE_BYTES), &first_bytes(alloc, MOST_ALLOCATION_BYTES));
    stdout().write_all(&text).unwrap();
}
