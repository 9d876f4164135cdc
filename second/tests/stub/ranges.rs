//! The range of each edition by the stub, right or with one fault; every call goes by it.

use second::edition::Range;

faults! {
    None
    ShorterInThree DeeperInThree CloserInThree CoarserInThree FartherInThree NearerInThree
    LongerInTwo ShallowerInTwo CloserInTwo CoarserInTwo FartherInTwo NearerInTwo
}

/// The range that stands in the place of the right one.
pub fn ranged<const R: usize>(right: Range) -> Range {
    let two = |wrong: Range| if right == Range::SHORTER { wrong } else { right };
    let three = |wrong: Range| if right == Range::LONGER { wrong } else { right };
    let Range { most_coordinate, least_tolerance, .. } = right;
    let closer = Range { least_tolerance: least_tolerance - 1, ..right };
    let coarser = Range { least_tolerance: least_tolerance + 1, ..right };
    let farther = Range { most_coordinate: most_coordinate + 1, ..right };
    let nearer = Range { most_coordinate: most_coordinate - 1, ..right };
    match FAULTS[R] {
        Fault::None => right,
        Fault::ShorterInThree => Range::SHORTER,
        Fault::DeeperInThree => three(Range { deepest: 20, ..right }),
        Fault::CloserInThree => three(closer),
        Fault::CoarserInThree => three(coarser),
        Fault::FartherInThree => three(farther),
        Fault::NearerInThree => three(nearer),
        Fault::LongerInTwo => Range::LONGER,
        Fault::ShallowerInTwo => two(Range { deepest: 19, ..right }),
        Fault::CloserInTwo => two(closer),
        Fault::CoarserInTwo => two(coarser),
        Fault::FartherInTwo => two(farther),
        Fault::NearerInTwo => two(nearer),
    }
}
