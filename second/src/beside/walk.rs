//! Every flavour of one seed after the other, for as long as there is time.

use super::progress::{verdict, Counts, Progress};
use super::report::{self, Again};
use super::tally::Tally;
use super::{bodies, compare, logs, process, why, Case, Library};
use crate::gen;
use std::fs;
use std::path::PathBuf;
use std::time::{Duration, Instant};

/// How often a long comparison says how far it is.
const SAYS: Duration = Duration::from_secs(600);
/// Of the time, one part in so many goes to `sweep` as a program, to bodies, to the largest bodies, to `why`, to `why` as a program, and to `keep` and
/// `tell`; the rest, seven parts in 24, to files in process.
const SWEEP_SHARE: u32 = 6;
const BODIES_SHARE: u32 = 4;
const LARGE_SHARE: u32 = 12;
const WHY_SHARE: u32 = 8;
const WHY_PROGRAM_SHARE: u32 = 24;
const KEEP_SHARE: u32 = 24;
/// The largest bodies take seconds, and are begun only where so much time is left.
const LARGE_NEEDS: Duration = Duration::from_secs(10);

const KEEP_AND_TELL: &str = "keep and tell as programs";

/// Holds the seed and the flavour of the case under way.
const UNDER_WAY: &str = "under-way";

/// A way of comparing a case, which counts what it goes through and says what differs.
type By<W, C, T> = fn(&W, &C, &mut T) -> Vec<String>;

/// Where each way of comparing stands.
struct Ways {
    calls: Progress<Tally>,
    sweeps: Progress<Tally>,
    bodies: Progress<bodies::tally::Tally>,
    large: Progress<bodies::tally::Tally>,
    why: Progress<why::tally::Tally>,
    why_programs: Progress<why::tally::Tally>,
    keeps: Progress<Tally>,
}

/// The programs as they are called, `why` but for its numbers.
pub struct Programs {
    pub sweep: Vec<String>,
    pub why: Vec<String>,
    pub keep: Vec<String>,
    pub tell: Vec<String>,
}

impl Programs {
    /// Each as its name says it is called.
    pub fn by(called: impl Fn(&str) -> Vec<String>) -> Programs {
        let [sweep, why, keep, tell] = ["sweep", "why", "keep", "tell"].map(called);
        Programs { sweep, why, keep, tell }
    }
}

pub struct Walk<'a> {
    pub library: Library,
    pub programs: &'a Programs,
    /// Where differences are kept.
    pub folder: PathBuf,
}

impl Ways {
    fn new(first: u64) -> Ways {
        let small =
            gen::bodies::flavours().into_iter().filter(|name| !gen::bodies::LARGE.contains(name));
        Ways {
            calls: Progress::new("in process", first, gen::flavours()),
            sweeps: Progress::new("sweep as a program", first, gen::flavours()),
            bodies: Progress::new("bodies", first, small.collect()),
            large: Progress::new("bodies of 256 triangles", first, gen::bodies::LARGE.to_vec()),
            why: Progress::new("why in process", first, gen::flavours()),
            why_programs: Progress::new("why as a program", first, gen::flavours()),
            keeps: Progress::new(KEEP_AND_TELL, first, gen::flavours()),
        }
    }

    fn say(&self) {
        self.calls.say();
        self.sweeps.say();
        self.bodies.say();
        self.large.say();
        self.why.say();
        self.why_programs.say();
        self.keeps.say();
    }

    /// Short runs have no time for the largest bodies; these alone may have no case.
    fn verdict(&self) -> bool {
        let files = [&self.calls, &self.sweeps, &self.keeps].map(|way| way.tally.cases());
        let why = [&self.why, &self.why_programs].map(|way| way.tally.cases());
        let mut ways = [&files[..], &why].concat();
        ways.push(self.bodies.tally.cases());
        ways.extend(Some(self.large.tally.cases()).filter(|cases| *cases != (0, 0)));
        verdict(&ways)
    }
}

impl Walk<'_> {
    /// Goes on from a seed until the time is over; true where nothing differed.
    pub fn run(&self, first: u64, time: Duration) -> bool {
        let mut ways = Ways::new(first);
        let begun = Instant::now();
        let mut said = begun;
        while begun.elapsed() < time {
            self.next(&mut ways, begun.elapsed(), time);
            if said.elapsed() > SAYS {
                said = Instant::now();
                ways.say();
            }
        }
        let _ = fs::remove_file(self.folder.join(UNDER_WAY));
        ways.say();
        ways.verdict()
    }

    /// One case of the way whose turn it is.
    fn next(&self, ways: &mut Ways, elapsed: Duration, time: Duration) {
        let has_time = elapsed + LARGE_NEEDS <= time;
        if has_time && ways.large.is_due(LARGE_SHARE, elapsed) {
            self.step(&mut ways.large, bodies::Case::new, Walk::bodies);
        } else if ways.bodies.is_due(BODIES_SHARE, elapsed) {
            self.step(&mut ways.bodies, bodies::Case::new, Walk::bodies);
        } else if ways.sweeps.is_due(SWEEP_SHARE, elapsed) {
            self.step(&mut ways.sweeps, Case::new, Walk::sweep);
        } else if ways.why.is_due(WHY_SHARE, elapsed) {
            self.step(&mut ways.why, Case::new, Walk::why);
        } else if ways.why_programs.is_due(WHY_PROGRAM_SHARE, elapsed) {
            self.step(&mut ways.why_programs, Case::new, Walk::why_program);
        } else if ways.keeps.is_due(KEEP_SHARE, elapsed) {
            self.step(&mut ways.keeps, Case::new, Walk::keep_and_tell);
        } else {
            self.step(&mut ways.calls, Case::new, Walk::calls);
        }
    }

    /// One file every way.
    pub fn only(&self, case: &Case) -> bool {
        verdict(&[
            self.once("in process", case, Walk::calls).cases(),
            self.once("sweep as a program", case, Walk::sweep).cases(),
            self.once("why in process", case, Walk::why).cases(),
            self.once("why as a program", case, Walk::why_program).cases(),
            self.once(KEEP_AND_TELL, case, Walk::keep_and_tell).cases(),
        ])
    }

    /// One pair of bodies.
    pub fn only_bodies(&self, case: &bodies::Case) -> bool {
        verdict(&[self.once("bodies", case, Walk::bodies).cases()])
    }

    /// One case one way.
    fn once<T: Counts, C: Again>(&self, name: &str, case: &C, by: By<Self, C, T>) -> T {
        let mut tally = T::default();
        self.judge(case, by(self, case, &mut tally), &mut tally);
        println!("{name}: {tally}");
        tally
    }

    fn calls(&self, case: &Case, tally: &mut Tally) -> Vec<String> {
        compare(&self.library, case, tally)
    }

    fn sweep(&self, case: &Case, tally: &mut Tally) -> Vec<String> {
        process::compare(&self.programs.sweep, case, tally)
    }

    fn why(&self, case: &Case, tally: &mut why::tally::Tally) -> Vec<String> {
        why::compare(&self.library, case, tally)
    }

    fn why_program(&self, case: &Case, tally: &mut why::tally::Tally) -> Vec<String> {
        why::program::compare(&self.programs.why, case, tally)
    }

    fn keep_and_tell(&self, case: &Case, tally: &mut Tally) -> Vec<String> {
        let Programs { keep, tell, .. } = self.programs;
        logs::program::compare(keep, tell, case, tally)
    }

    fn bodies(&self, case: &bodies::Case, tally: &mut bodies::tally::Tally) -> Vec<String> {
        bodies::compare(&self.library, case, tally)
    }

    fn step<T: Counts, C: Again>(
        &self,
        way: &mut Progress<T>,
        make: fn(u64, &str) -> Option<C>,
        by: By<Self, C, T>,
    ) {
        let begun = Instant::now();
        let (seed, flavour) = way.advance();
        self.under_way(seed, flavour);
        let case = make(seed, flavour).expect("a flavour of the list");
        let differences = by(self, &case, &mut way.tally);
        self.judge(&case, differences, &mut way.tally);
        way.taken += begun.elapsed();
    }

    /// Notes the case under way, which is then known even if the library does not return.
    fn under_way(&self, seed: u64, flavour: &str) {
        let text = format!("seed {seed}, flavour {flavour}\n");
        let made = fs::create_dir_all(&self.folder);
        if let Err(fault) = made.and_then(|()| fs::write(self.folder.join(UNDER_WAY), text)) {
            println!("not noted: {fault}");
        }
    }

    fn judge(&self, case: &impl Again, differences: Vec<String>, tally: &mut impl Counts) {
        tally.case(!differences.is_empty());
        if !differences.is_empty() {
            if let Err(fault) = report::keep(&self.folder, case, &differences) {
                println!("not kept: {fault}");
            }
        }
    }
}
