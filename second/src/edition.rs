//! The editions of the query file, and the range that goes with each.

use crate::refusals::Refusal;

#[derive(Clone, Copy, Debug, PartialEq, Eq)]
pub enum Edition {
    /// One separation for all axes.
    One = 1,
    /// A separation for each axis, and a cap.
    Two = 2,
    /// Edition 2's record with the longer range.
    Three = 3,
}

/// What differs between berths of two lengths; everything else has one range for all editions.
#[derive(Clone, Copy, Debug, PartialEq, Eq)]
pub struct Range {
    /// Coordinates go from minus this to this.
    pub most_coordinate: i32,
    /// The deepest that a parameter is split.
    pub deepest: u32,
    pub least_tolerance: u32,
}

impl Edition {
    pub const ALL: [Edition; 3] = [Edition::One, Edition::Two, Edition::Three];

    /// Refusal 10 for a number that is no edition's.
    pub fn of(number: u8) -> Result<Edition, Refusal> {
        let found = Edition::ALL.into_iter().find(|edition| edition.number() == number);
        found.ok_or(Refusal::Edition)
    }

    pub fn number(self) -> u8 {
        self as u8
    }

    pub fn range(self) -> Range {
        match self {
            Edition::One | Edition::Two => Range::SHORTER,
            Edition::Three => Range::LONGER,
        }
    }

    /// True where a record has a separation for each axis, and a cap.
    pub fn is_by_axis(self) -> bool {
        self != Edition::One
    }

    /// Bytes of one record.
    pub fn record_bytes(self) -> usize {
        if self.is_by_axis() {
            128
        } else {
            116
        }
    }

    /// Bytes of so many records.
    pub fn records_bytes(self, count: u32) -> usize {
        count as usize * self.record_bytes()
    }
}

impl Range {
    /// Of editions 1 and 2.
    pub const SHORTER: Range =
        Range { most_coordinate: 1_048_576, deepest: 20, least_tolerance: 16 };
    /// Of edition 3.
    pub const LONGER: Range =
        Range { most_coordinate: 2_097_152, deepest: 19, least_tolerance: 64 };

    /// Of a number that may be no edition's: the shorter one then, so that a record has its 3 and 5 before 10.
    pub fn of(edition: u8) -> Range {
        Edition::of(edition).map_or(Range::SHORTER, Edition::range)
    }

    pub fn holds(&self, coordinate: i32) -> bool {
        (-self.most_coordinate..=self.most_coordinate).contains(&coordinate)
    }
}
