//! make_examples FOLDER: writes the worked images and what the program `runs` prints for each.

use std::path::PathBuf;
use std::process::ExitCode;
use std::{env, fs};

use images::worked::{self, Worked};

fn main() -> ExitCode {
    let Some(folder) = env::args_os().nth(1).map(PathBuf::from) else {
        eprintln!("usage: make_examples FOLDER");
        return ExitCode::from(2);
    };
    for (name, content) in worked::all().iter().flat_map(Worked::files) {
        let place = folder.join(name);
        if let Err(error) = fs::write(&place, content) {
            eprintln!("make_examples: {}: {error}", place.display());
            return ExitCode::FAILURE;
        }
        println!("{}", place.display());
    }
    ExitCode::SUCCESS
}
