//! Bodies with bounds by the stub, right or with one fault.

mod listed;
mod replaced;
mod walked;

use super::ranges::ranged;
use second::beside::functions::{BoundsArguments, ReplaceArguments, WalkArguments};
use second::bodies::{Body, NUMBERS};
use second::edition::{Edition, Range};
use second::parameters;
use second::refusals::Refusal;

faults! {
    None
    FourthLeftOut FourthOfTheStartAlone FourthOfTheEndAlone FourthAcrossFromAnother StartAlone EndAlone
    GreatestFirst AxisByAxis BlocksOf31 BlocksOf33 ShortBlockForgotten WholeBody ClampedToTheRange
    NumberBeyondBounds RestCleared ShortRoomTaken WrittenThoughShort SpaceBeforeCoordinates
    BodyBeforeEdition CoordinatesBeforeBody EndUnchecked FirstBlockChecked EditionFourTaken ShorterAlways LongerAlways
    AtLeastForFurther SeparationOfX SeparationsExchanged NoSeparation PassedWithoutTheFourth PassedByTheStart
    PassedByTheEnd FourteenChecks SixteenChecks OneCheckATriangle ABlockCountedOnce WholeBlockCounted
    CountsBehindTheEnd CountsBehindTheEndInTheRow RestOfBPassed CapLostBehindABlock
    FirstBlockOfA TriangleWithinItsBlock
    BoundsBeforeQueries BoundsBeforeBody SpaceBeforeBounds EntryShortTaken LongerListTaken ContentsUnchecked
    ListOfAUnchecked ListOfBUnchecked LastNumberUnchecked LeastUnchecked GreatestUnchecked LooserTaken TighterTaken
    QueueLeftWhereAllPassed QueueClearedOnBounds ToldWrittenOnBounds ListMended
    NeighbourToo NotWorkedOutAgain AllWorkedOut OnlyWidened StartKept EndKept EndsExchanged LongerCornersTaken
    ShortCornersTaken IndexBeforeBody IndexCutTo32Bits IndexOfTheCountTaken CoordinatesBeforeIndex
    GoingOneChecked OtherBlocksChecked OthersUnchecked OthersOfTheEndUnchecked NewOneUnchecked
    BoundsBeforeCoordinates ContentsChecked ShortListWorkedOut LongListWorkedOut ReplacedThoughRefused BlockOfTheNext
    EditionUncheckedInReplace ShorterInReplace LongerInReplace
}

/// A function of the stub with fault number N, by the range that fault number R gives it.
macro_rules! stubbed {
    ($function:ident $arguments:ident $module:ident; $($name:ident: $type:ty),*) => {
        #[allow(clippy::too_many_arguments)]
        pub unsafe extern "C" fn $function<const N: usize, const R: usize>($($name: $type),*) -> u32 {
            let arguments = $arguments { $($name),* };
            let range = ranged::<R>(Range::of(arguments.edition));
            $module::called(FAULTS[N], range, arguments)
        }
    };
}

parameters!(bounds to stubbed bounds BoundsArguments listed);
parameters!(walk to stubbed walk WalkArguments walked);
parameters!(replace to stubbed replace ReplaceArguments replaced);

/// The number of the first refusal that is due, 0 for none.
fn first_due(in_order: &[(Refusal, bool)]) -> u32 {
    in_order.iter().find(|(_, due)| *due).map_or(0, |(refusal, _)| refusal.number())
}

fn is_edition(number: u8) -> bool {
    Edition::of(number).is_ok()
}

fn is_body(body: &Body) -> bool {
    let length = NUMBERS.saturating_mul(body.count);
    (1..=256).contains(&body.count) && body.start.len() == length && body.end.len() == length
}

fn holds_all(range: Range, numbers: &[i32]) -> bool {
    numbers.iter().all(|number| range.holds(*number))
}
