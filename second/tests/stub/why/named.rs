//! The box that the stub names, right or with one fault.

use super::Fault;
use second::gap::{corners, Motion, Q};
use second::record::Record;
use second::search::log::{Miss, Side};
use second::why::{Discarded, Parts, Searched, ONE, TOLD};

/// The index of the box that holds a part at a depth: of two the upper one, but for 1.
pub fn right(depth: u32, part: u32) -> u32 {
    (part >> (20 - depth)).min((1 << depth) - 1)
}

/// Of two the lower one, also at a boundary.
fn lower(depth: u32, part: u32) -> u32 {
    part.saturating_sub(1) >> (20 - depth)
}

/// The first box on a way down by these indices that the search discarded, if there is one.
pub fn on_the_way(
    searched: &Searched,
    point: Parts,
    index: fn(u32, u32) -> u32,
) -> Option<Discarded> {
    searched.log.iter().enumerate().find_map(|(level, logged)| {
        let depths = logged.depths;
        let grid_box = [0, 1, 2].map(|n| index(depths[n], point[n]));
        let found = logged.checked.iter().find(|checked| checked.grid_box == grid_box)?;
        Some(Discarded { level, depths, grid_box, miss: found.missed? })
    })
}

/// The nine numbers of a point that is taken for one that was ruled out.
pub fn told(fault: Fault, searched: &Searched, point: Parts) -> [u32; TOLD] {
    let nothing = Miss { axis: 0, side: Side::Below };
    let whole = Discarded { level: 0, depths: [0; 3], grid_box: [0; 3], miss: nothing };
    // A fault may let points in that the search knows nothing of.
    let named = on_the_way(searched, point, right).unwrap_or(whole);
    let named = match fault {
        Fault::LowerHalfOnABoundary => on_the_way(searched, point, lower).unwrap_or(named),
        _ => another(fault, searched, point, named),
    };
    let mut numbers = named.told();
    match fault {
        Fault::LevelOneMore => numbers[0] += 1,
        Fault::LevelOneLess => numbers[0] = numbers[0].saturating_sub(1),
        Fault::IndicesOfUFirst => numbers.swap(4, 5),
        Fault::SidesExchanged => numbers[8] = 1 - numbers[8],
        _ => {}
    }
    numbers
}

/// Another box or another axis than the one to be named.
fn another(fault: Fault, searched: &Searched, point: Parts, named: Discarded) -> Discarded {
    let Discarded { level, depths, grid_box, .. } = named;
    match fault {
        Fault::UpperBoxAtOne => {
            let grid_box = [0, 1, 2].map(|n| grid_box[n] + u32::from(point[n] == ONE));
            Discarded { grid_box, ..named }
        }
        Fault::YBeforeX => first_axis(&searched.record, named, [1, 0, 2]),
        Fault::ZFirst => first_axis(&searched.record, named, [2, 0, 1]),
        Fault::SurvivorNamed if level > 0 => at_level(searched, point, named, level - 1),
        Fault::GoesOnPastTheDiscarded if level + 1 < searched.log.len() => {
            at_level(searched, point, named, level + 1)
        }
        Fault::FirstSurvivorNamed => first_survivor(searched, named),
        Fault::IndicesInParts => {
            let grid_box = [0, 1, 2].map(|n| grid_box[n] * (ONE >> depths[n]));
            Discarded { grid_box, ..named }
        }
        _ => named,
    }
}

/// The box of the point in another level.
fn at_level(searched: &Searched, point: Parts, named: Discarded, level: usize) -> Discarded {
    let depths = searched.log[level].depths;
    let grid_box = [0, 1, 2].map(|n| right(depths[n], point[n]));
    Discarded { level, depths, grid_box, ..named }
}

/// The first survivor of the last level that has one.
fn first_survivor(searched: &Searched, named: Discarded) -> Discarded {
    let survivor = searched.log.iter().enumerate().rev().find_map(|(level, logged)| {
        let found = logged.checked.iter().find(|checked| checked.missed.is_none())?;
        let (depths, grid_box) = (logged.depths, found.grid_box);
        Some(Discarded { level, depths, grid_box, ..named })
    });
    survivor.unwrap_or(named)
}

/// The first axis in another order that misses.
fn first_axis(record: &Record, named: Discarded, order: [usize; 3]) -> Discarded {
    let motion = Motion::of(record);
    let ends = [0, 1, 2].map(|n| {
        let side = Q >> named.depths[n];
        [0, 1].map(|end| (i128::from(named.grid_box[n]) + end) * side)
    });
    let sides = |axis: usize| {
        let d = i128::from(record.separations[axis]) * Q * Q;
        let f: Vec<i128> = corners(ends).into_iter().map(|corner| motion.f(corner)[axis]).collect();
        let above = f.iter().all(|f| *f > d).then_some(Side::Above);
        above.or(f.iter().all(|f| *f < -d).then_some(Side::Below))
    };
    let first = order.iter().find_map(|axis| Some(Miss { axis: *axis, side: sides(*axis)? }));
    Discarded { miss: first.unwrap_or(named.miss), ..named }
}
