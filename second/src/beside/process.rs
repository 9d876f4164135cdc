//! A program of its own, against what the second program prints.

use super::tally::Tally;
use super::Case;
use crate::text::{sweep, SWEEP_WORDS};
use std::io::Write;
use std::process::{Command, Stdio};

/// What differs between the output of `sweep` and the second program's text, a line each.
pub fn compare(program: &[String], case: &Case, tally: &mut Tally) -> Vec<String> {
    let must = sweep(&case.file, SWEEP_WORDS);
    tally.text(case.edition(), &must);
    difference("sweep", program, &case.file, &must).into_iter().collect()
}

/// What a program wrote on standard output and on standard error.
pub struct Output {
    pub bytes: Vec<u8>,
    pub errors: Vec<u8>,
}

/// What differs between the text that a program prints of an input and the text that it must print.
pub fn difference(name: &str, program: &[String], input: &[u8], must: &str) -> Option<String> {
    match output(program, input) {
        Err(fault) => Some(format!("{name}: {fault}")),
        Ok(output) => text_difference(&output.bytes, must).map(|found| format!("{name}: {found}")),
    }
}

/// The first line of a text that is not as it must be.
pub fn text_difference(bytes: &[u8], must: &str) -> Option<String> {
    let text = String::from_utf8_lossy(bytes);
    (text != must).then(|| first_difference(&text, must))
}

/// What the program writes, if it ends well.
pub fn output(program: &[String], input: &[u8]) -> Result<Output, String> {
    let mut child = Command::new(&program[0])
        .args(&program[1..])
        .stdin(Stdio::piped())
        .stdout(Stdio::piped())
        .stderr(Stdio::piped())
        .spawn()
        .map_err(|fault| format!("{} does not start: {fault}", program[0]))?;
    let mut stdin = child.stdin.take().expect("standard input is piped");
    let output = std::thread::scope(|scope| {
        // A program that has read enough may close its end, which is no fault.
        scope.spawn(move || stdin.write_all(input));
        child.wait_with_output()
    });
    let output = output.map_err(|fault| fault.to_string())?;
    if !output.status.success() {
        let said = String::from_utf8_lossy(&output.stderr);
        return Err(format!("ended with {}, and said '{}'", output.status, said.trim_end()));
    }
    Ok(Output { bytes: output.stdout, errors: output.stderr })
}

fn first_difference(text: &str, must: &str) -> String {
    let place = text.lines().zip(must.lines()).take_while(|(is, must)| is == must).count();
    let line = |text: &str| text.lines().nth(place).unwrap_or("(nothing)").to_string();
    format!("line {place} is '{}' and must be '{}'", line(text), line(must))
}
