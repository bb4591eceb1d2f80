//! Makes station.tab and station.alloc in a folder from a readable description.
use std::{env, fs, path::Path, process::exit};

fn main() {
    let args: Vec<String> = env::args().skip(1).collect();
    let [description, folder] = &args[..] else {
        eprintln!("usage: make-station DESCRIPTION FOLDER");
        exit(2);
    };
    let made = fs::read_to_string(description)
        .map_err(|why| why.to_string())
        .and_then(|text| model::description::parse(&text))
        .and_then(|station| {
            let folder = Path::new(folder);
            let tab = model::file::write(&station.tables);
            fs::write(folder.join("station.tab"), tab).map_err(|why| why.to_string())?;
            fs::write(folder.join("station.alloc"), station.allocation).map_err(|why| why.to_string())
        });
    if let Err(why) = made {
        eprintln!("{description}: {why}");
        exit(1);
    }
}
