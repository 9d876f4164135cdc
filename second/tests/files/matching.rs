//! a query file matched with its answers, and answered whole.

use super::answers::FOUR;
use crate::common::*;
use second::answer_file::text::{keep, tell};
use second::answer_file::{answered, file_of, matched, read};
use second::edition::Edition;
use second::file::file_of as query_file;
use second::record::Record;
use second::refusals::Refusal;
use second::text::sweep;

/// The records that the four answers of the rows belong to.
fn queries(edition: Edition) -> Vec<u8> {
    let beside = Record { id: 2, ..falls([150, 150, 0], [150, 150, 0], T) };
    let poor = Record { id: 3, budget: 4, ..first_case() };
    let refused = Record { id: 4, tolerance: 15, ..first_case() };
    query_file(edition, &[first_case(), beside, poor, refused])
}

#[test]
fn rows_of_matching() {
    let (file, log) = (queries(Edition::Two), file_of(&FOUR));
    assert_eq!(matched(&file, &log), Ok(()));
    let swapped = file_of(&[FOUR[1], FOUR[0], FOUR[2], FOUR[3]]);
    assert_eq!(matched(&file, &swapped), Err(Refusal::Match));
    assert_eq!(matched(&file, &file_of(&FOUR[..3])), Err(Refusal::Match));
    assert_eq!(matched(&file[..file.len() - 1], &log), Err(Refusal::Mark));
    let mut query_mark = log.clone();
    query_mark[128] = b'Q';
    assert_eq!(matched(&file, &query_mark), Err(Refusal::Mark));
    let mut wrong = FOUR;
    wrong[0][1] = 77;
    assert_eq!(matched(&file, &file_of(&wrong)), Ok(()));
    assert_eq!(read(&file_of(&wrong), 0), Err(Refusal::Word));
}

#[test]
fn query_file_is_opened_first() {
    let (file, log) = (queries(Edition::One), file_of(&FOUR));
    let mut edition = file.clone();
    edition[4 * 116 + 4] = 4;
    assert_eq!(matched(&edition, &log[..15]), Err(Refusal::Edition));
    assert_eq!(matched(&file, &log[..15]), Err(Refusal::Short));
    assert_eq!(matched(&file, &file), Err(Refusal::Mark));
    assert_eq!(matched(&query_file(Edition::One, &[]), &file_of(&[])), Ok(()));
}

#[test]
fn a_whole_file_is_answered() {
    let mut three = FOUR;
    // Edition 3 has no tolerance of 16.
    three[1] = [2, 0, 0, 0, 0, 0, 0, 5];
    for (edition, four) in Edition::ALL.into_iter().zip([FOUR, FOUR, three]) {
        let file = queries(edition);
        let log = answered(&file, 4096).unwrap();
        assert_eq!(log, file_of(&four));
        assert_eq!(matched(&file, &log), Ok(()));
        assert_eq!(keep(&file), Ok(log));
    }
    let refused = [1, 2, 3, 4].map(|id| [id, 0, 0, 0, 0, 0, 0, if id == 4 { 5 } else { 7 }]);
    assert_eq!(answered(&queries(Edition::Two), 1), Ok(file_of(&refused)));
    assert_eq!(answered(&[0; 15], 4096), Err(Refusal::Short));
    assert_eq!(keep(&[0; 65_536]), Err(Refusal::Mark));
    assert_eq!(keep(&[0; 65_537]), Err(Refusal::Long));
}

#[test]
fn what_is_kept_is_told_as_swept() {
    for flavour in ["mixed", "refusals2", "cap3", "empty", "leading2", "damaged3", "edge65537"] {
        for file in files(flavour, 6) {
            let text = keep(&file).map_or_else(second::text::file_line, |log| tell(&log));
            assert_eq!(text, sweep(&file, 4096), "{flavour}");
        }
    }
}
