//! Triangles replaced by the stub.

use super::listed::bound;
use super::{first_due, holds_all, is_body, is_edition, Fault};
use second::beside::functions::ReplaceArguments;
use second::bodies::{Body, NUMBERS};
use second::edition::Range;
use second::refusals::Refusal;
use std::slice::{from_raw_parts, from_raw_parts_mut};

/// Triangles of a block, numbers of a bound, numbers of a triangle at both ends.
const BLOCK: usize = 32;
const BOUND: usize = 6;
const CORNERS: usize = 2 * NUMBERS;

/// A body and its bounds, lent to be changed, and what stands in the place of triangle n.
struct Lent<'a> {
    count: usize,
    start: &'a mut [i32],
    end: &'a mut [i32],
    bounds: &'a mut [i32],
    n: usize,
    corners: &'a [i32],
}

pub unsafe fn called(fault: Fault, range: Range, of: ReplaceArguments) -> u32 {
    let range = match fault {
        Fault::ShorterInReplace => Range::SHORTER,
        Fault::LongerInReplace => Range::LONGER,
        _ => range,
    };
    let mut lent = Lent {
        count: of.count,
        start: from_raw_parts_mut(of.start, of.start_len),
        end: from_raw_parts_mut(of.end, of.end_len),
        bounds: from_raw_parts_mut(of.bounds, of.bounds_len),
        n: if fault == Fault::IndexCutTo32Bits { of.n as u32 as usize } else { of.n },
        corners: from_raw_parts(of.corners, of.corners_len),
    };
    let number = first_due(&lent.due(fault, range, of.edition));
    let is_early = fault == Fault::ReplacedThoughRefused && number == 27;
    if number == 0 || is_early {
        lent.put(fault);
    }
    if number == 0 {
        lent.work_out(fault, range);
    }
    number
}

impl Lent<'_> {
    fn body(&self) -> Body<'_> {
        Body { count: self.count, start: self.start, end: self.end }
    }

    fn is_body(&self, fault: Fault) -> bool {
        let length = self.corners.len();
        let fits = match fault {
            Fault::LongerCornersTaken => length >= CORNERS,
            Fault::ShortCornersTaken => length <= CORNERS,
            _ => length == CORNERS,
        };
        is_body(&self.body()) && fits
    }

    /// The refusals in the fault's order.
    fn due(&self, fault: Fault, range: Range, edition: u8) -> [(Refusal, bool); 5] {
        let unchecked = fault == Fault::EditionUncheckedInReplace;
        let edition = (Refusal::Edition, !is_edition(edition) && !unchecked);
        let no_body = (Refusal::Body, !self.is_body(fault));
        let past = usize::from(fault == Fault::IndexOfTheCountTaken);
        let index = (Refusal::Index, self.n >= self.count.saturating_add(past));
        let coordinates = (Refusal::Coord, !self.is_held(fault, range));
        let bounds = (Refusal::Bounds, self.is_untrue(fault, range));
        match fault {
            Fault::IndexBeforeBody => [edition, index, no_body, coordinates, bounds],
            Fault::CoordinatesBeforeIndex => [edition, no_body, coordinates, index, bounds],
            Fault::BoundsBeforeCoordinates => [edition, no_body, index, bounds, coordinates],
            _ => [edition, no_body, index, coordinates, bounds],
        }
    }

    /// True where every coordinate that the fault looks at is in the range.
    fn is_held(&self, fault: Fault, range: Range) -> bool {
        let is_looked_at = |triangle: usize| match fault {
            Fault::OthersUnchecked => false,
            Fault::GoingOneChecked => triangle / BLOCK == self.n / BLOCK,
            Fault::OtherBlocksChecked => triangle != self.n,
            _ => triangle / BLOCK == self.n / BLOCK && triangle != self.n,
        };
        let of = |list: &[i32]| {
            let mut triangles = list.chunks(NUMBERS).enumerate();
            triangles.all(|(n, numbers)| !is_looked_at(n) || holds_all(range, numbers))
        };
        let ends = of(self.start) && (fault == Fault::OthersOfTheEndUnchecked || of(self.end));
        ends && (fault == Fault::NewOneUnchecked || holds_all(range, self.corners))
    }

    fn is_untrue(&self, fault: Fault, range: Range) -> bool {
        let right = BOUND.saturating_mul(self.count.div_ceil(BLOCK));
        let length = self.bounds.len();
        match fault {
            Fault::ShortListWorkedOut => length > right,
            Fault::LongListWorkedOut => length < right,
            Fault::ContentsChecked if is_body(&self.body()) && length == right => {
                *self.bounds != super::listed::list(Fault::None, range, &self.body())
            }
            _ => length != right,
        }
    }

    fn put(&mut self, fault: Fault) {
        let half = |at: usize| self.corners.iter().skip(at).take(NUMBERS).copied().collect();
        let mut halves: [Vec<i32>; 2] = [half(0), half(NUMBERS)];
        if fault == Fault::EndsExchanged {
            halves.reverse();
        }
        let [start, end] = halves;
        if fault != Fault::StartKept {
            place(self.start, self.n, &start);
        }
        if fault != Fault::EndKept {
            place(self.end, self.n, &end);
        }
    }

    /// The entries that the fault works out again.
    fn work_out(&mut self, fault: Fault, range: Range) {
        let own = self.n / BLOCK;
        let last = self.count.div_ceil(BLOCK);
        let blocks: Vec<usize> = match fault {
            Fault::NotWorkedOutAgain => vec![],
            Fault::NeighbourToo => vec![own, own + 1],
            Fault::AllWorkedOut => (0..last).collect(),
            Fault::BlockOfTheNext => vec![(self.n + 1) / BLOCK],
            _ => vec![own],
        };
        for block in blocks.into_iter().filter(|block| *block < last) {
            let behind = self.count.min(BLOCK * (block + 1));
            let triangles: Vec<usize> = (BLOCK * block..behind).collect();
            let anew = bound(Fault::None, range, &self.body(), &triangles);
            let entry = self.bounds.iter_mut().skip(BOUND * block).zip(anew).enumerate();
            entry.for_each(|(axis, (place, number))| {
                *place = match fault {
                    Fault::OnlyWidened if axis < 3 => number.min(*place),
                    Fault::OnlyWidened => number.max(*place),
                    _ => number,
                };
            });
        }
    }
}

/// Nine numbers in the place of those of triangle n, where the list has them.
fn place(list: &mut [i32], n: usize, triangle: &[i32]) {
    let places = list.iter_mut().skip(NUMBERS * n).take(NUMBERS);
    places.zip(triangle).for_each(|(place, number)| *place = *number);
}
