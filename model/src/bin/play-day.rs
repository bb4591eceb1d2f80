//! Prints what the program rehearse prints for a table file and a text of changes.
use model::changes::MOST_CHANGES_BYTES;
use model::input::first_bytes;
use model::rehearsal::rehearse_text;
use model::text::MOST_TABLE_BYTES;
use std::io::{stdout, Write};
use std::{env, process::exit};

fn main() {
    let args: Vec<String> = env::args().skip(1).collect();
    let [tab, changes] = &args[..] else {
        eprintln!("usage: play-day TABLE-FILE CHANGES");
        exit(2);
    };
    let text = rehearse_text(&first_bytes(tab, MOST_TABLE_BYTES), &first_bytes(changes, MOST_CHANGES_BYTES));
    stdout().write_all(&text).unwrap();
}
