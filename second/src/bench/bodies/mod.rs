//! Two bodies of 256 triangles, and walks through them written by hand.

pub mod bounded;
pub mod bounds;
pub mod contest;
pub mod corpus;
pub mod costs;
#[cfg(feature = "beside")]
pub mod linked;
mod reach;
pub mod walk;
