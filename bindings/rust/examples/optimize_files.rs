//! Optimises the scripts in files and folders: `cargo run --example optimize_files -- FROM TO` reads each `.rhai` file
//! below the folder FROM and writes it, optimised, below the folder TO.

use std::error::Error;
use std::path::Path;
use std::{env, fs, process};

fn main() {
    let words: Vec<String> = env::args().skip(1).collect();
    let [from, to] = words.as_slice() else {
        eprintln!("usage: optimize_files FROM TO");
        process::exit(2);
    };
    match folder(Path::new(from), Path::new(to)) {
        Ok(true) => {}
        Ok(false) => process::exit(1),
        Err(error) => {
            eprintln!("{error}");
            process::exit(2);
        }
    }
}

/// Optimises what is below a folder; whether all of it was scripts.
fn folder(from: &Path, to: &Path) -> Result<bool, Box<dyn Error>> {
    let mut is_well = true;
    let mut entries: Vec<_> = fs::read_dir(from)?.collect::<Result<_, _>>()?;
    entries.sort_by_key(|entry| entry.file_name());
    for entry in entries {
        let (path, made) = (entry.path(), to.join(entry.file_name()));
        if path.is_dir() {
            is_well &= folder(&path, &made)?;
        } else if path.extension().is_some_and(|it| it == "rhai") {
            is_well &= file(&path, &made)?;
        }
    }
    Ok(is_well)
}

/// Optimises a file; whether it is a script.
fn file(from: &Path, to: &Path) -> Result<bool, Box<dyn Error>> {
    let source = fs::read_to_string(from)?;
    match balvuzsom::optimize(&source, &balvuzsom::Options::default()) {
        Ok(text) => {
            if let Some(folder) = to.parent() {
                fs::create_dir_all(folder)?;
            }
            fs::write(to, text)?;
            println!("{} -> {}", from.display(), to.display());
            Ok(true)
        }
        Err(error) => {
            eprintln!("{}: {error}", from.display());
            Ok(false)
        }
    }
}
