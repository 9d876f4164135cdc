//! Compares the proved library and the programs over it with the second program.

use second::beside::walk::{Programs, Walk};
use second::beside::{bodies, linked, Case};
use std::path::PathBuf;
use std::process::ExitCode;
use std::time::Duration;

const USAGE: &str = "\
usage: compare SECONDS SEED FOLDER           from a seed on, for so long
       compare --only SEED FLAVOUR FOLDER    one file or pair of bodies; a program is FOLDER/NAME/out/NAME";

fn main() -> ExitCode {
    let arguments: Vec<String> = std::env::args().skip(1).collect();
    match run(&arguments) {
        Some(true) => ExitCode::SUCCESS,
        Some(false) => ExitCode::FAILURE,
        None => {
            eprintln!("{USAGE}");
            ExitCode::from(2)
        }
    }
}

/// True where nothing differed; nothing where the arguments say nothing known.
fn run(arguments: &[String]) -> Option<bool> {
    let only = arguments.first()? == "--only";
    let (numbers, programs) = arguments.split_at_checked(if only { 3 } else { 2 })?;
    let [folder] = programs else { return None };
    let programs = Programs::by(|name| vec![format!("{folder}/{name}/out/{name}")]);
    let folder = PathBuf::from("target/differences");
    let walk = Walk { library: linked::library(), programs: &programs, folder };
    if only {
        let (seed, flavour) = (numbers[1].parse().ok()?, &numbers[2]);
        let of_bodies = || Some(walk.only_bodies(&bodies::Case::new(seed, flavour)?));
        return Case::new(seed, flavour).map(|case| walk.only(&case)).or_else(of_bodies);
    }
    let time = Duration::from_secs(numbers[0].parse().ok()?);
    Some(walk.run(numbers[1].parse().ok()?, time))
}
