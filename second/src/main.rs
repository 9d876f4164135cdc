//! The command line of the second program.

use std::fs::File;
use std::io::{Read, Write};
use std::process::ExitCode;

use second::answer_file::text::{keep, tell, MOST_LOG};
use second::edition::Edition;
use second::gen::{flavours, generate, queries::queries, words::words};
use second::script;
use second::text::{file_line, sweep, MOST_INPUT, SWEEP_WORDS};
use second::why::text;

const USAGE: &str = "\
usage: second sweep [WORDS]         answers the query file on standard input
       second keep [FILE]           the answer file of a query file, by name or on standard input
       second tell [FILE]           the same lines of an answer file
       second why N T U V [FILE]    why a moment and place of record N was ruled out; the file by name or on standard input
       second gen SEED FLAVOUR      writes a query file
       second flavours              lists the flavours
       second words SEED FLAVOUR    queue lengths worth trying on that file
       second queries SEED N [3]    cheap queries and their answers, one a line; of edition 2, or of edition 3
       second write                 makes a query file of the text on standard input";

fn main() -> ExitCode {
    let arguments: Vec<String> = std::env::args().skip(1).collect();
    let arguments: Vec<&str> = arguments.iter().map(String::as_str).collect();
    let output = match arguments[..] {
        ["write"] => written(),
        _ => run(&arguments).ok_or_else(|| USAGE.to_string()),
    };
    match output {
        Ok(output) => print(&output),
        Err(why) => {
            eprintln!("{why}");
            ExitCode::from(2)
        }
    }
}

/// The bytes to print, or nothing if the command line says nothing known.
fn run(arguments: &[&str]) -> Option<Vec<u8>> {
    match arguments {
        ["sweep"] => Some(sweep(&input(), SWEEP_WORDS).into_bytes()),
        ["sweep", words] => Some(sweep(&input(), words.parse().ok()?).into_bytes()),
        ["keep"] => Some(answer_file(&input())),
        ["keep", file] => Some(answer_file(&kept(opened(file)?, MOST_INPUT))),
        ["tell"] => Some(tell(&kept(std::io::stdin().lock(), MOST_LOG)).into_bytes()),
        ["tell", file] => Some(tell(&kept(opened(file)?, MOST_LOG)).into_bytes()),
        ["why", n, t, u, v] => why_line(n, [t, u, v], input),
        ["why", n, t, u, v, file] => {
            let opened = opened(file)?;
            why_line(n, [t, u, v], || kept(opened, MOST_INPUT))
        }
        ["gen", seed, flavour] => generate(seed.parse().ok()?, flavour),
        ["flavours"] => Some((flavours().join("\n") + "\n").into_bytes()),
        ["words", seed, flavour] => Some(spaced(&words(seed.parse().ok()?, flavour)?)),
        ["queries", seed, number] => query_lines(seed, number, Edition::Two),
        ["queries", seed, number, "3"] => query_lines(seed, number, Edition::Three),
        _ => None,
    }
}

/// The query file of the text on standard input, all of it.
fn written() -> Result<Vec<u8>, String> {
    let mut text = Vec::new();
    let read = std::io::stdin().lock().read_to_end(&mut text);
    read.map_err(|fault| format!("the input cannot be read: {fault}"))?;
    script::write(&text).map_err(|wrong| wrong.to_string())
}

fn query_lines(seed: &str, number: &str, edition: Edition) -> Option<Vec<u8>> {
    Some(queries(seed.parse().ok()?, number.parse().ok()?, edition).into_bytes())
}

/// The answer file, or no byte of a refused file, whose number goes to standard error.
fn answer_file(input: &[u8]) -> Vec<u8> {
    keep(input).unwrap_or_else(|refusal| {
        eprint!("{}", file_line(refusal));
        Vec::new()
    })
}

/// The line of `why`; nothing is read where an argument is no number.
fn why_line(n: &str, point: [&str; 3], input: impl FnOnce() -> Vec<u8>) -> Option<Vec<u8>> {
    let [t, u, v] = point.map(|parts| parts.parse().ok());
    let (n, point) = (n.parse().ok()?, [t?, u?, v?]);
    let why = text::searched(&input(), n).and_then(|searched| searched.why(point));
    Some(text::line(&why).into_bytes())
}

/// One line of numbers.
fn spaced(numbers: &[usize]) -> Vec<u8> {
    let numbers: Vec<String> = numbers.iter().map(usize::to_string).collect();
    (numbers.join(" ") + "\n").into_bytes()
}

/// A file by its name.
fn opened(name: &str) -> Option<File> {
    File::open(name).map_err(|fault| eprintln!("{name} cannot be opened: {fault}")).ok()
}

fn input() -> Vec<u8> {
    kept(std::io::stdin().lock(), MOST_INPUT)
}

/// What a file or standard input holds, but no more kept than tells that it is longer than it may be.
fn kept(mut from: impl Read, most: usize) -> Vec<u8> {
    let mut bytes = Vec::new();
    let kept = from.by_ref().take(most as u64 + 1).read_to_end(&mut bytes);
    // The rest is read and dropped, so that whoever writes it is not cut off.
    let dropped = std::io::copy(&mut from, &mut std::io::sink());
    kept.and(dropped).expect("the input can be read");
    bytes
}

fn print(output: &[u8]) -> ExitCode {
    match std::io::stdout().write_all(output) {
        Ok(()) => ExitCode::SUCCESS,
        Err(_) => ExitCode::FAILURE,
    }
}
