//! Makes all files of the shipped example again from its description and its changes. The argument is the top folder.
use model::shipped::{files, CHANGES, DESCRIPTION};
use std::{env, fs, path::Path, process::exit};

fn make(top: &Path) -> Result<(), String> {
    let text = fs::read_to_string(top.join(DESCRIPTION)).map_err(|why| format!("{DESCRIPTION}: {why}"))?;
    let changes = fs::read(top.join(CHANGES)).map_err(|why| format!("{CHANGES}: {why}"))?;
    for (place, bytes) in files(&text, &changes).map_err(|why| format!("{DESCRIPTION}: {why}"))? {
        let path = top.join(&place);
        let folder = path.parent().ok_or("a file without folder")?;
        fs::create_dir_all(folder).map_err(|why| format!("{place}: {why}"))?;
        fs::write(&path, bytes).map_err(|why| format!("{place}: {why}"))?;
    }
    Ok(())
}

fn main() {
    let args: Vec<String> = env::args().skip(1).collect();
    let [top] = &args[..] else {
        eprintln!("usage: make-example TOP-FOLDER");
        exit(2);
    };
    if let Err(why) = make(Path::new(top)) {
        eprintln!("{why}");
        exit(1);
    }
}
