//! What the bench reads back of an answer file.

use second::answer_file::{answered, read};
use second::bench::answering::answers;
use second::bench::corpus::{Corpus, QUEUE_WORDS, SEED};
use second::bench::fast::Fast;
use second::bench::logged::{boxes, read_back};
use second::edition::Edition::One;
use second::refusals::Refusal;

type Numbers = (u32, Vec<u64>, Vec<u32>);

/// Code, queue and told of a call for a whole file.
fn called(count: usize, by: impl Fn(&mut [u64], &mut [u32]) -> u32) -> Numbers {
    let (mut queue, mut told) = (vec![7; QUEUE_WORDS], vec![7; 8 * count]);
    (by(&mut queue, &mut told), queue, told)
}

fn log(file: &[u8], queue: &mut [u64], out: &mut [u8]) -> u32 {
    let log = answered(file, queue.len()).expect("a query file");
    queue.fill(0);
    out.copy_from_slice(&log);
    0
}

fn read_one(log: &[u8], n: usize, told: &mut [u32]) -> u32 {
    match read(log, n as u32) {
        Ok(numbers) => told.copy_from_slice(&numbers),
        Err(refusal) => return refusal.number(),
    }
    0
}

/// The last answer has another count.
fn another_count(file: &[u8], queue: &mut [u64], out: &mut [u8]) -> u32 {
    let code = log(file, queue, out);
    let at = out.len() - 16 - 8;
    out[at] ^= 1;
    code
}

#[test]
fn answer_file_is_read_back_as_the_answers_are_told() {
    let [class, ..] = Corpus::new(SEED, One).by_size;
    let (file, count) = (&class.file, class.queries);
    let must = called(count, |queue, told| answers::<Fast>(file, queue, told));
    let back = |log: fn(&[u8], &mut [u64], &mut [u8]) -> u32| {
        called(count, |queue, told| read_back(log, read_one, file, queue, told))
    };
    assert!(back(log) == must);
    assert!(back(another_count) != must);
    // Nothing written, and a call that refuses.
    assert_eq!(back(|_, _, _| 0).0, Refusal::Mark.number());
    assert_eq!(back(|file, queue, out| log(file, queue, out) + 14).0, 14);
    let counts: u64 = must.2.chunks_exact(8).map(|told| u64::from(told[6])).sum();
    assert_eq!(boxes(&answered(file, QUEUE_WORDS).expect("a query file")), counts);
}
