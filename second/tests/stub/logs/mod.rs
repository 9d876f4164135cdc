//! The functions on answer files of the stub, right or with one fault.

mod matched;
mod reading;
mod whole;
mod writing;

use second::beside::functions::{
    LogArguments, LogCountArguments, LogReadArguments, LogTrailerArguments, LogWriteArguments,
    MatchedArguments,
};
use second::beside::Library;
use second::parameters;
use second::refusals::Refusal;
use second::told::Told;

faults! {
    None
    FieldsExchanged FieldsExchangedInWrite FieldsExchangedInRead HighBytesFirst
    TimeOfOneTaken LastPartOfOneTaken LastPartRefused CountZeroTaken CountZeroOfClearTaken LargerCountTaken
    MostCountRefused WordSixTaken WordsAboveSixTaken FloorRefused NumberZeroTaken LargeNumberRefused LargeExcessRefused
    TimeOfClearUnseen ExcessOfClearUnseen NumberOfClearUnseen CountOfRefusedUnseen TimeOfRefusedUnseen ExcessOfRefusedUnseen
    NumberOfMetUnseen NumberOfFloorUnseen
    FewNumbersTaken MoreNumbersRefused SpaceBeforeWord WordUnseenInWrite ByteBeyond WrittenThoughShort PlaceCutTo32Bits SpaceOneByteLate
    SpaceOneByteEarly
    TrailerOfQueries TrailerOfEditionTwo TrailerBackOf116 TrailerBackBeforeCount TrailerSpaceBeforeBack
    TrailerOneByteBefore TrailerByteBeyond TrailerMostRefused TrailerOneMoreTaken TrailerZeroBytesLeft
    MarkOfQueriesTaken EditionTwoTaken ZeroBytesUnseen BackUnseen BackBeforeCount OneMoreTaken LeadingBytesRead EditionBeforeMark
    WordUnseenInRead WordBeforeIndex EveryWordSeen SpaceBeforeWordInRead SpaceBeforeIndex IndexCutTo32Bits ToldWrittenThoughRefused
    NinthNumberWritten CountUnwritten CountSpaceFirst CountSeesWords
    MatchedBySets MatchedByAccepted MatchedByCountAlone MatchedByIdsOfBoth MatchedByFirst MatchedByLast AnswersOpenedFirst
    MatchSeesWords MatchSeesRecords MatchSkipsRefused CountsBeforeOpening
    RefusedAsMet RefusedLeftOut StopsAtRefused NumberLost EditionOfQueries WholeTrailerOfQueries IdsCounted
    QueueLeft QueueClearedThoughRefused WholeWrittenThoughShort WholeByteBeyond WholeSpaceFirst RoomForTrailerUnseen
}

/// A function of the stub with fault number N.
macro_rules! stubbed {
    ($function:ident $arguments:ident $module:ident; $($name:ident: $type:ty),*) => {
        pub unsafe extern "C" fn $function<const N: usize>($($name: $type),*) -> u32 {
            let result = $module::$function(FAULTS[N], $arguments { $($name),* });
            result.map_or_else(Refusal::number, |()| 0)
        }
    };
}

parameters!(log_write to stubbed log_write LogWriteArguments writing);
parameters!(log_trailer to stubbed log_trailer LogTrailerArguments writing);
parameters!(log_read to stubbed log_read LogReadArguments reading);
parameters!(log_count to stubbed log_count LogCountArguments reading);
parameters!(matched to stubbed matched MatchedArguments matched);
parameters!(log to stubbed log LogArguments whole);

/// The library with fault number N of the list of answer files.
pub fn logs_library<const N: usize>() -> Library {
    Library {
        log_write: log_write::<N>,
        log_trailer: log_trailer::<N>,
        log_read: log_read::<N>,
        log_count: log_count::<N>,
        matched: matched::<N>,
        log: log::<N>,
        ..super::library::<0>()
    }
}

fn refused(is: bool, refusal: Refusal) -> Result<(), Refusal> {
    if is {
        return Err(refusal);
    }
    Ok(())
}

/// Refusal 16, with the fault.
fn check(fault: Fault, told: &Told) -> Result<(), Refusal> {
    let [_, word, t, u, v, excess, count, number] = *told;
    let is_refused = match fault {
        Fault::LastPartRefused => [t, u, v].contains(&1_048_575),
        Fault::MostCountRefused => count == 1_000_000,
        Fault::FloorRefused => word == 5,
        Fault::LargeNumberRefused => number > 27,
        Fault::LargeExcessRefused => excess > i32::MAX as u32,
        _ => false,
    };
    refused(is_refused, Refusal::Word)?;
    second::answer_file::check(&taken(fault, told))
}

/// The answer that 16 looks at, with the fault: what it does not see is as it should be.
fn taken(fault: Fault, told: &Told) -> Told {
    let mut told = *told;
    let word = told[1];
    let unseen = |n: usize, told: &mut Told| told[n] = 0;
    match fault {
        Fault::TimeOfOneTaken if told[2] == 1_048_576 => told[2] -= 1,
        Fault::LastPartOfOneTaken if told[4] == 1_048_576 => told[4] -= 1,
        Fault::CountZeroTaken if told[6] == 0 && word != 0 => told[6] = 1,
        Fault::CountZeroOfClearTaken if told[6] == 0 && word == 2 => told[6] = 1,
        Fault::LargerCountTaken if told[6] == 1_000_001 => told[6] -= 1,
        Fault::WordSixTaken if word == 6 => told[1] = 5,
        Fault::WordsAboveSixTaken if word > 6 => told[1] = 5,
        Fault::NumberZeroTaken if word == 0 && told[7] == 0 => told[7] = 1,
        Fault::TimeOfClearUnseen if word == 2 => unseen(2, &mut told),
        Fault::ExcessOfClearUnseen if word == 2 => unseen(5, &mut told),
        Fault::NumberOfClearUnseen if word == 2 => unseen(7, &mut told),
        Fault::CountOfRefusedUnseen if word == 0 => unseen(6, &mut told),
        Fault::TimeOfRefusedUnseen if word == 0 => unseen(2, &mut told),
        Fault::ExcessOfRefusedUnseen if word == 0 => unseen(5, &mut told),
        Fault::NumberOfMetUnseen if word == 1 => unseen(7, &mut told),
        Fault::NumberOfFloorUnseen if word == 5 => unseen(7, &mut told),
        _ => {}
    }
    told
}

/// The numbers in the order in which the faulty library has them.
fn in_order(fault: Fault, mut told: Told, also: Fault) -> Told {
    if fault == Fault::FieldsExchanged || fault == also {
        told.swap(2, 3);
    }
    if fault == Fault::HighBytesFirst {
        told[0] = told[0].swap_bytes();
    }
    told
}
