//! The search of the stub up to a cap, right or with one fault.

use second::edition::Range;
use second::record::Record;
use second::refusals::{check_words, Refusal, MOST_CAP};
use second::search::{search, Answer};

faults! {
    None
    Ignored RefusedByTwo EqualDropped OneBeyondKept ZeroAsANumber WholeRefused OneMoreTaken HighBitsCut
    BeforeBudget AfterQueue OddRoundedUp RoomOfTheWholeStep SpentOfTheWholeStep
}

/// The answer to a record, with the fault.
pub fn answered<const C: usize>(record: &Record, range: Range, words: usize) -> Answer {
    match search(record, range, words) {
        Answer::Refused(refusal) => refused(FAULTS[C], refusal, record, range, words),
        right => searched(FAULTS[C], right, record, range, words),
    }
}

fn with(cap: u32, record: &Record, range: Range, words: usize) -> Answer {
    search(&Record { cap, ..*record }, range, words)
}

/// Of a record that is refused.
fn refused(fault: Fault, right: Refusal, record: &Record, range: Range, words: usize) -> Answer {
    let beyond = record.cap > MOST_CAP;
    match fault {
        Fault::Ignored => with(0, record, range, words),
        Fault::RefusedByTwo if record.cap != 0 && right != Refusal::Kind => {
            Answer::Refused(Refusal::Flags)
        }
        Fault::OneMoreTaken if record.cap == MOST_CAP + 1 => with(0, record, range, words),
        Fault::HighBitsCut => with(record.cap % MOST_CAP, record, range, words),
        Fault::BeforeBudget if beyond && right == Refusal::Budget => Answer::Refused(Refusal::Cap),
        Fault::AfterQueue if right == Refusal::Cap && check_words(words).is_err() => {
            Answer::Refused(Refusal::Queue)
        }
        _ => Answer::Refused(right),
    }
}

/// Of a record that is not.
fn searched(fault: Fault, right: Answer, record: &Record, range: Range, words: usize) -> Answer {
    let cap = record.cap;
    let with = |cap: u32| with(cap, record, range, words);
    let is_longer = range == Range::LONGER;
    match fault {
        Fault::Ignored => with(0),
        Fault::RefusedByTwo if cap != 0 => Answer::Refused(Refusal::Flags),
        Fault::EqualDropped if cap > 1 => with(cap - 1),
        Fault::OneBeyondKept if cap != 0 => with((cap + 1).min(MOST_CAP)),
        // Next to nothing begins at the first part.
        Fault::ZeroAsANumber if cap == 0 => with(1),
        Fault::WholeRefused if cap == MOST_CAP => Answer::Refused(Refusal::Cap),
        Fault::OddRoundedUp if is_longer => with(cap.next_multiple_of(2)),
        // As if halves that are dropped took room, or boxes of the budget.
        Fault::RoomOfTheWholeStep => Some(with(0)).filter(is_room).unwrap_or(right),
        Fault::SpentOfTheWholeStep => Some(with(0)).filter(is_spent).unwrap_or(right),
        _ => right,
    }
}

fn is_room(answer: &Answer) -> bool {
    matches!(answer, Answer::Room(_))
}

fn is_spent(answer: &Answer) -> bool {
    matches!(answer, Answer::Spent(_))
}
