//! Query files at random, by flavour; each depends on the seed and the flavour only.

mod bad;
pub mod bodies;
mod caps;
mod deep;
mod degenerate;
mod dice;
mod far;
pub mod queries;
mod shapes;
mod sizes;
mod tuned;
pub mod words;

use crate::edition::Edition;
use crate::file::file_of;
use crate::record::Record;
use dice::Dice;

type Make = fn(&mut Dice) -> Vec<u8>;

/// Every flavour's name in editions 1, 2 and 3, and what makes its files.
const FLAVOURS: [([&str; 3], Make); 18] = [
    (["tiny", "tiny2", "tiny3"], |rng| plain(rng, shapes::tiny)),
    (["full", "full2", "full3"], |rng| plain(rng, shapes::full)),
    (["degenerate", "degenerate2", "degenerate3"], |rng| plain(rng, degenerate::degenerate)),
    (["extreme", "extreme2", "extreme3"], |rng| plain(rng, shapes::extreme)),
    (["mixed", "mixed2", "mixed3"], |rng| plain(rng, mixed)),
    (["deep", "deep2", "deep3"], |rng| few(rng, deep::deep)),
    (["budget", "budget2", "budget3"], tuned::budget),
    (["queue", "queue2", "queue3"], tuned::queue),
    (["refusals", "refusals2", "refusals3"], |rng| plain(rng, bad::maybe_refused)),
    (["damaged", "damaged2", "damaged3"], bad::damaged),
    (["truncated", "truncated2", "truncated3"], bad::truncated),
    (["many", "many2", "many3"], sizes::many),
    (["most", "most2", "most3"], sizes::most),
    (["edge65536", "edge65536-2", "edge65536-3"], |rng| sizes::exactly(rng, 65_536)),
    (["edge65537", "edge65537-2", "edge65537-3"], |rng| sizes::exactly(rng, 65_537)),
    (["empty", "empty2", "empty3"], sizes::empty),
    (["leading", "leading2", "leading3"], sizes::leading),
    (["one", "one2", "one3"], |rng| vec_of(rng, 1, mixed)),
];

/// Those with caps, which edition 1 has not: their names in editions 2 and 3.
const CAPPED: [([&str; 2], Make); 3] = [
    (["cap2", "cap3"], caps::moments),
    (["cap-budget2", "cap-budget3"], caps::budget),
    (["cap-queue2", "cap-queue3"], caps::queue),
];

/// The flavours' names.
pub fn flavours() -> Vec<&'static str> {
    let capped = CAPPED.iter().flat_map(|(names, _)| *names);
    FLAVOURS.iter().flat_map(|(names, _)| *names).chain(capped).collect()
}

/// The file of a seed and a flavour, if there is such a flavour.
pub fn generate(seed: u64, flavour: &str) -> Option<Vec<u8>> {
    let (edition, make) = in_all(flavour).or_else(|| behind_one(flavour))?;
    Some(make(&mut Dice::new(seed, flavour, edition)))
}

fn in_all(flavour: &str) -> Option<(Edition, Make)> {
    named(&FLAVOURS, flavour).map(|(place, make)| (Edition::ALL[place], make))
}

fn behind_one(flavour: &str) -> Option<(Edition, Make)> {
    named(&CAPPED, flavour).map(|(place, make)| ([Edition::Two, Edition::Three][place], make))
}

/// Which of its names a flavour has and what makes it, if there is such a flavour.
fn named<const N: usize, T: Copy>(list: &[([&str; N], T)], flavour: &str) -> Option<(usize, T)> {
    let place = |names: &[&str; N]| names.iter().position(|name| *name == flavour);
    list.iter().find_map(|(names, make)| Some((place(names)?, *make)))
}

/// 10 to 40 records of one shape, sometimes behind a few free bytes.
fn plain(rng: &mut Dice, shape: fn(&mut Dice) -> Record) -> Vec<u8> {
    let count = 10 + rng.below(31);
    let mut file = if rng.one_in(4) { free_bytes(rng) } else { Vec::new() };
    file.extend(vec_of(rng, count, shape));
    file
}

/// Two to five records of a shape that takes many boxes.
fn few(rng: &mut Dice, shape: fn(&mut Dice) -> Record) -> Vec<u8> {
    let count = 2 + rng.below(4);
    vec_of(rng, count, shape)
}

fn free_bytes(rng: &mut Dice) -> Vec<u8> {
    let length = 1 + rng.below(200);
    rng.bytes(length)
}

/// A file of so many records of one shape.
fn vec_of(rng: &mut Dice, count: usize, shape: fn(&mut Dice) -> Record) -> Vec<u8> {
    let records: Vec<Record> = (0..count).map(|_| shape(rng)).collect();
    file_of(rng.edition, &as_in_a_file(rng, records))
}

/// A record of any valid shape, sometimes a refused one.
fn mixed(rng: &mut Dice) -> Record {
    match rng.below(9) {
        0..=2 => shapes::tiny(rng),
        3 | 4 => degenerate::degenerate(rng),
        5 | 6 => shapes::full(rng),
        7 => shapes::extreme(rng),
        _ => bad::maybe_refused(rng),
    }
}

/// Ids mostly 1, 2, 3 and so on, sometimes any number, equal ones too; places in edition 3 mostly moved out.
fn as_in_a_file(rng: &mut Dice, mut records: Vec<Record>) -> Vec<Record> {
    let plain_ids = !rng.one_in(3);
    for (n, record) in records.iter_mut().enumerate() {
        let odd = [0, 1, u32::MAX, 1 << 31, rng.draw() as u32];
        record.id = if plain_ids { n as u32 + 1 } else { rng.pick(&odd) };
        *record = far::moved_out(rng, *record);
    }
    records
}
