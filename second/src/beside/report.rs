//! Differences kept so that they can be looked at and run again.

use std::fs;
use std::path::Path;

/// Lines kept of one case's differences.
const KEPT: usize = 20;

/// A case that a seed and a flavour make again.
pub trait Again {
    /// Its seed and flavour, and the queue lengths tried on it.
    fn drawn_by(&self) -> (u64, &'static str, &[usize]);
    /// What is kept of it, and the ending of that file's name.
    fn contents(&self) -> (&'static str, Vec<u8>);
}

/// Prints the differences of a case, and keeps them beside the file that shows them.
pub fn keep(folder: &Path, case: &impl Again, differences: &[String]) -> std::io::Result<()> {
    let (seed, flavour, words) = case.drawn_by();
    let name = format!("compare-{seed}-{flavour}");
    let lines = &differences[..differences.len().min(KEPT)];
    let again = format!("again: tools/compare --only {seed} {flavour}");
    let text = format!(
        "seed {seed}, flavour {flavour}, words {words:?}\n{}\n{} differences\n{again}\n",
        lines.join("\n"),
        differences.len()
    );
    print!("DIFFERS: {text}");
    fs::create_dir_all(folder)?;
    let (ending, contents) = case.contents();
    fs::write(folder.join(format!("{name}.{ending}")), contents)?;
    fs::write(folder.join(format!("{name}.txt")), text)
}
