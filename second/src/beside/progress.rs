//! Where one way of comparing stands in seeds × flavours.

use std::fmt::Display;
use std::time::Duration;

/// Beginnings of flavours of large files, in either edition: one in so many seeds.
const SELDOM: [(&str, u64); 3] = [("many", 8), ("most", 4), ("edge6553", 4)];

/// What a way of comparing counts.
pub trait Counts: Default + Display {
    /// A case compared, and whether anything differed.
    fn case(&mut self, differs: bool);
    /// Cases that passed, and cases that differed.
    fn cases(&self) -> (u64, u64);
}

pub struct Progress<T> {
    name: &'static str,
    first: u64,
    next: usize,
    flavours: Vec<&'static str>,
    pub tally: T,
    pub taken: Duration,
}

impl<T: Counts> Progress<T> {
    /// From a seed on, each with all of these flavours.
    pub fn new(name: &'static str, first: u64, flavours: Vec<&'static str>) -> Progress<T> {
        Progress { name, first, next: 0, flavours, tally: T::default(), taken: Duration::ZERO }
    }

    fn seed(&self) -> u64 {
        self.first + (self.next / self.flavours.len()) as u64
    }

    /// The next seed and flavour.
    pub fn advance(&mut self) -> (u64, &'static str) {
        loop {
            let (seed, flavour) = (self.seed(), self.flavours[self.next % self.flavours.len()]);
            self.next += 1;
            let seldom = SELDOM.iter().find(|(name, _)| flavour.starts_with(name));
            if seldom.is_none_or(|(_, every)| (seed - self.first) % every == 0) {
                return (seed, flavour);
            }
        }
    }

    /// True where it has had less than one part in so many of the time.
    pub fn is_due(&self, share: u32, elapsed: Duration) -> bool {
        self.taken * share <= elapsed
    }

    pub fn say(&self) {
        let Progress { name, first, tally, .. } = self;
        println!("{name}: from seed {first} up to {}; {tally}", self.seed());
    }
}

/// Says how many cases passed and failed over all ways; one that no case went through has failed.
pub fn verdict(ways: &[(u64, u64)]) -> bool {
    let passed: u64 = ways.iter().map(|(passed, _)| passed).sum();
    let failed = |way: &(u64, u64)| if *way == (0, 0) { 1 } else { way.1 };
    let failed: u64 = ways.iter().map(failed).sum();
    println!("{passed} passed, {failed} failed");
    failed == 0
}
