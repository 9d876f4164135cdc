//! Records with caps at the moments that matter to their own search.

use super::dice::Dice;
use super::tuned::{any_shape, budgets, crowded, peak, some_at_a_time};
use super::{as_in_a_file, deep};
use crate::file::file_of;
use crate::record::Record;
use crate::refusals::MOST_CAP;
use crate::search::search_traced;

/// Caps looked at for one that leaves a level fewer boxes.
const TRIES: usize = 8;

/// One record with caps at a moment, one part before it and one behind it.
pub fn moments(rng: &mut Dice) -> Vec<u8> {
    some_at_a_time(rng, |rng| {
        let base = shape(rng);
        let moment = moment(rng, &base);
        let caps = [moment.saturating_sub(1), moment, moment.saturating_add(1)];
        caps.map(|cap| Record { cap, ..base }).to_vec()
    })
}

/// Budgets at a count where something happens in a search up to a cap, one below and one above.
pub fn budget(rng: &mut Dice) -> Vec<u8> {
    some_at_a_time(rng, |rng| {
        let base = shape(rng);
        let capped = capped(rng, base);
        budgets(rng, capped)
    })
}

/// Records without a cap, each before the same with one, mostly such that it needs less of a queue.
pub fn queue(rng: &mut Dice) -> Vec<u8> {
    let pairs = 5 + rng.below(8);
    let records = (0..pairs).flat_map(|_| {
        let whole = crowded(rng);
        [whole, smaller(rng, whole)]
    });
    let records = records.collect();
    file_of(rng.edition, &as_in_a_file(rng, records))
}

/// A record with a cap at a moment that matters, or beside it.
pub fn capped(rng: &mut Dice, base: Record) -> Record {
    let moment = moment(rng, &base);
    let cap = rng.pick(&[moment.saturating_sub(1), moment, moment, moment.saturating_add(1)]);
    Record { cap: cap.min(MOST_CAP), ..base }
}

fn shape(rng: &mut Dice) -> Record {
    if rng.one_in(16) {
        return deep::deep(rng);
    }
    let record = any_shape(rng);
    // A large budget was fit for the whole step; a cap may cut off what answers soon.
    Record { budget: record.budget.min(2000), ..record }
}

/// The answered time, a grid line on which a checked box begins, or an end of the caps' range and beyond it.
fn moment(rng: &mut Dice, base: &Record) -> u32 {
    let (answer, trace) = search_traced(&Record { budget: 400, ..*base }, rng.range(), 4096);
    let any = (MOST_CAP << rng.below(12)) + rng.below(MOST_CAP as usize) as u32;
    let end = rng.pick(&[1, 2, MOST_CAP, MOST_CAP, MOST_CAP, any, u32::MAX]);
    let lines = trace.log.iter().flat_map(|level| {
        let low = |t: u32| t * (MOST_CAP >> level.depths[0]);
        level.checked.iter().map(move |checked| low(checked.grid_box[0]))
    });
    let mut lines: Vec<u32> = lines.filter(|line| *line > 0).collect();
    lines.sort();
    lines.dedup();
    if lines.is_empty() {
        return end;
    }
    let line = rng.pick(&lines);
    let answered = answer.corner().map(|corner| corner.t).filter(|t| *t > 0).unwrap_or(line);
    rng.pick(&[end, line, line, answered, answered])
}

/// The same record with a cap, by which its largest level is smaller where one of a few tried makes it so.
fn smaller(rng: &mut Dice, whole: Record) -> Record {
    let most = peak(&whole, rng.range());
    for _ in 0..TRIES {
        let capped = capped(rng, whole);
        if capped.cap != 0 && peak(&capped, rng.range()) < most {
            return capped;
        }
    }
    capped(rng, whole)
}
