//! What is given in numbers, written and asked by the stub, right or with one fault.

use second::edition::{Edition, Range};
use second::file::write_record;
use second::record::{Point, Record};
use second::refusals::{check_to_write, Refusal};
use second::search::search;
use second::told::told;
use std::slice::{from_raw_parts, from_raw_parts_mut};

faults! {
    None
    EndAsStart LastNumberForgotten SeparationsExchanged ToleranceAndBudgetExchanged KindAsFlags
    CapIgnored IdForgotten PointsMissedLast PointsUnmissed ByteBeyond EditionOfNone WrittenInEditionTwo
    ShorterRangeAlways LongerRangeAlways EditionAfterPoints EditionFourTaken RefusalReturned
    ToldThoughShort ToldUncleared ClearedThoughRefused BeyondTold
}

/// What is given, with the fault.
struct Given {
    kind: u8,
    flags: u8,
    id: u32,
    separations: [u32; 3],
    tolerance: u32,
    budget: u32,
    cap: u32,
}

impl Given {
    fn record(&self, fault: Fault, numbers: &[i32]) -> Record {
        let mut all = numbers.to_vec();
        all.resize(24, 0);
        match fault {
            Fault::EndAsStart => all.copy_within(12.., 0),
            Fault::LastNumberForgotten => all[23] = 0,
            _ => {}
        }
        let [x, y, z] = self.separations;
        let exchanged = fault == Fault::ToleranceAndBudgetExchanged;
        let [tolerance, budget] =
            if exchanged { [self.budget, self.tolerance] } else { [self.tolerance, self.budget] };
        let as_flags = fault == Fault::KindAsFlags;
        Record {
            kind: if as_flags { self.flags } else { self.kind },
            flags: if as_flags { self.kind } else { self.flags },
            byte2: 0,
            byte3: 0,
            id: if fault == Fault::IdForgotten { 0 } else { self.id },
            separations: if fault == Fault::SeparationsExchanged { [y, x, z] } else { [x, y, z] },
            tolerance,
            budget,
            cap: if fault == Fault::CapIgnored { 0 } else { self.cap },
            start: points(&all[..12]),
            end: points(&all[12..24]),
        }
    }
}

fn points(twelve: &[i32]) -> [Point; 4] {
    [0, 3, 6, 9].map(|at| [twelve[at], twelve[at + 1], twelve[at + 2]])
}

fn number(result: Result<(), Refusal>) -> u32 {
    result.map_or_else(Refusal::number, |()| 0)
}

#[allow(clippy::too_many_arguments)]
pub unsafe extern "C" fn write<const N: usize>(
    out: *mut u8,
    lent: usize,
    at: usize,
    edition: u8,
    kind: u8,
    flags: u8,
    id: u32,
    dx: u32,
    dy: u32,
    dz: u32,
    tolerance: u32,
    budget: u32,
    cap: u32,
    from: *const i32,
    numbers: usize,
) -> u32 {
    let (fault, out) = (FAULTS[N], from_raw_parts_mut(out, lent));
    let given = Given { kind, flags, id, separations: [dx, dy, dz], tolerance, budget, cap };
    let record = given.record(fault, from_raw_parts(from, numbers));
    let few = numbers < 24 && fault != Fault::PointsUnmissed;
    if few && fault != Fault::PointsMissedLast {
        return Refusal::Space.number();
    }
    let into = match fault {
        Fault::WrittenInEditionTwo if edition == 3 => 2,
        Fault::EditionOfNone if Edition::of(edition).is_err() => 2,
        _ => edition,
    };
    if few {
        let own = number(check_to_write(&record, edition));
        return if own != 0 { own } else { Refusal::Space.number() };
    }
    let number = number(write_record(out, at, into, &record));
    if number == 0 && fault == Fault::ByteBeyond {
        let end = at + Edition::of(into).map_or(0, Edition::record_bytes);
        out.iter_mut().skip(end).take(1).for_each(|byte| *byte ^= 1);
    }
    number
}

#[allow(clippy::too_many_arguments)]
pub unsafe extern "C" fn pair<const N: usize>(
    edition: u8,
    kind: u8,
    flags: u8,
    id: u32,
    dx: u32,
    dy: u32,
    dz: u32,
    tolerance: u32,
    budget: u32,
    cap: u32,
    from: *const i32,
    numbers: usize,
    queue: *mut u64,
    words: usize,
    out: *mut u32,
    lent: usize,
) -> u32 {
    let fault = FAULTS[N];
    let (queue, out) = (from_raw_parts_mut(queue, words), from_raw_parts_mut(out, lent));
    let given = Given { kind, flags, id, separations: [dx, dy, dz], tolerance, budget, cap };
    let record = given.record(fault, from_raw_parts(from, numbers));
    let taken = fault == Fault::EditionFourTaken && edition == 4;
    let ten = if taken { 0 } else { number(Edition::of(edition).map(|_| ())) };
    let few = numbers < 24 && fault != Fault::PointsUnmissed;
    let short = lent < 8;
    let fourteen = if few || short { Refusal::Space.number() } else { 0 };
    let order = if fault == Fault::EditionAfterPoints { [fourteen, ten] } else { [ten, fourteen] };
    let refusal = order.into_iter().find(|number| *number != 0).unwrap_or(0);
    let range = match fault {
        Fault::ShorterRangeAlways => Range::SHORTER,
        Fault::LongerRangeAlways => Range::LONGER,
        _ => Range::of(edition),
    };
    if refusal != 0 && !(fault == Fault::ToldThoughShort && short && lent > 0) {
        return refusal;
    }
    let mut eight = [record.id; 8];
    eight[1..].copy_from_slice(&told(&search(&record, range, words)));
    out.iter_mut().zip(eight).for_each(|(place, number)| *place = number);
    let clears = match fault {
        Fault::ToldUncleared => false,
        Fault::ClearedThoughRefused => true,
        _ => eight[1] != 0,
    };
    if clears {
        queue.fill(0);
    }
    if fault == Fault::BeyondTold {
        out.iter_mut().skip(8).take(1).for_each(|word| *word ^= 1);
    }
    if fault == Fault::RefusalReturned {
        eight[7]
    } else {
        refusal
    }
}
