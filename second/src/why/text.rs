//! What the program `why` prints.

use super::{Discarded, Searched, ONE};
use crate::file::{record_at, record_number};
use crate::refusals::Refusal;
use crate::search::log::Side;
use crate::text::{file_line, MOST_INPUT, SWEEP_WORDS};

/// Record n of an input, searched as `sweep` does: 15 before anything else, 8 to 13, 1 to 6 and 22.
pub fn searched(input: &[u8], n: usize) -> Result<Searched, Refusal> {
    if input.len() > MOST_INPUT {
        return Err(Refusal::Long);
    }
    let (record, range) = record_at(input, record_number(n))?;
    Searched::of(&record, range, SWEEP_WORDS)
}

/// The one line that says what rules a point out, or what is refused.
pub fn line(answer: &Result<Discarded, Refusal>) -> String {
    match answer {
        Ok(discarded) => ruled_out(discarded),
        Err(refusal) => refused(*refusal),
    }
}

fn ruled_out(discarded: &Discarded) -> String {
    let Discarded { level, depths: [kt, ku, kv], grid_box: [t, u, v], miss } = discarded;
    let axis = ["x", "y", "z"][miss.axis];
    let side = if miss.side == Side::Above { "+" } else { "-" };
    let ends = [0, 1, 2].map(|n| ends(discarded.depths[n], discarded.grid_box[n]));
    let [t_ends, u_ends, v_ends] = ends.map(|[low, high]| format!("{low} to {high}"));
    let [t_share, u_share, v_share] =
        ends.map(|[low, high]| format!("{} to {}", percent(low), percent(high)));
    format!(
        "RULED OUT on {axis}, first body on the {side} side: t {t_ends}, u {u_ends}, v {v_ends} \
         ({t_share}, {u_share}, {v_share}); level {level}, depths {kt} {ku} {kv}, box {t} {u} {v}\n"
    )
}

/// Of a box in one parameter, in parts.
fn ends(depth: u32, index: u32) -> [u32; 2] {
    [index, index + 1].map(|index| index * (ONE >> depth))
}

/// Parts of the whole in hundredths of a percent, rounded down.
fn percent(parts: u32) -> String {
    let hundredths = u64::from(parts) * 10_000 / u64::from(ONE);
    format!("{}.{:02} %", hundredths / 100, hundredths % 100)
}

fn refused(refusal: Refusal) -> String {
    let why = match refusal {
        Refusal::Outside => {
            " not in the domain (t, u and v are at most 1048576, and for a face so is u + v), \
             or t is beyond the cap"
        }
        Refusal::NotRuledOut => " not ruled out: the search answers this moment or an earlier one",
        _ if is_of_the_file(refusal) => return file_line(refusal),
        _ => "",
    };
    format!("REFUSED {}{why}\n", refusal.number())
}

/// 8 to 13, and 15.
fn is_of_the_file(refusal: Refusal) -> bool {
    (Refusal::Short.number()..=Refusal::Index.number()).contains(&refusal.number())
        || refusal == Refusal::Long
}
